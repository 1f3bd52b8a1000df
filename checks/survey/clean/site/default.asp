<%@ LANGUAGE="VBScript" %>
<% Option Explicit %>
<!-- #include virtual="/inc/own.inc" -->
<%
' Now, Rnd and Response.Expires in a comment, CreateObject("ADODB.Connection") too
Rem Date and Time
Dim d, text, at
Set d = Server.CreateObject("Scripting.Dictionary")
d.Add "Now", "the Date, ""Timer"" and Server.Transfer in a text"
d("Expires") = Round("1.50", 2) : Month 5
text = Request("Date") & Request.QueryString("Time")
With d
    at = .Count
End With
[Day] = at
Response.Cookies("last") = text
Response.AddHeader "Expires", "Thu, 01 Jan 1970 00:00:00 GMT"
Response.CacheControl = "no-cache"
%>
<p><%= at _
    + 1 %> <!-- Now: an ordinary comment -->
<script language="JavaScript">document.write(new Date())</script>
