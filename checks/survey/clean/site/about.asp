<!--#include file="inc/own.inc"-->
<% Dim c : Set c = New Clock : c.Hour = 3 %>
<%= c.Minute %> <%= Round("2.345", 2) %>
