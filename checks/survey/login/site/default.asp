<%
Session.LCID = 1033
If Session("user") = "" Then Server.Transfer "login.asp"
Response.ExpiresAbsolute = #1/1/1990 00:00:00#
Response.AppendToLog "seen"
%>
Welcome back, <%= Session("user") %>!
