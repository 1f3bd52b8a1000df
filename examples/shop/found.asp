<%@ LANGUAGE=VBScript %>
<% Option Explicit %>
<html>
<head><title>Found</title><link rel="stylesheet" href="/style.css"></head>
<body>
<%
Dim thing, pieces
thing = Trim(Request.QueryString("thing"))
pieces = Request.QueryString("pieces")
If thing = "" Then Response.Redirect "/find.asp"
If IsNumeric(pieces) Then
  pieces = CLng(pieces)
Else
  pieces = 1
End If
Response.Cookies("last") = thing
%><p><%= pieces %> of <%= Server.HTMLEncode(thing) %></p>
<p><a href="/find.asp?thing=<%= Server.URLEncode(thing) %>">Find another</a></p>
</body>
</html>
