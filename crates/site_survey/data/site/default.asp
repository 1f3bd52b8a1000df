<%@ LANGUAGE="VBScript" CODEPAGE="1252" %>
<!--#include file='top.inc'-->
<!--#include file="inc\old.inc"-->
<!-- METADATA TYPE="typelib" -->
<% Response.Expires = -1 %>
<%= Now %> <%= Date() %>
<% = x %>
<% Set c = Server.CreateObject("ADODB.Connection") %>
