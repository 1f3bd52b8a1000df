<%@ LANGUAGE="VBSCRIPT" %>
<!--#include file='settings.inc'-->
<html><head><title>Our Guestbook</title></head>
<body bgcolor="#FFFFFF" text="#000080">
<h1>Sign my guestbook!!!</h1>
<form action="sign.asp" method="post">
Name: <input name="who"><br>
Text: <textarea name="text" rows="5" cols="40"></textarea><br>
<input type="submit" value="Sign!">
</form>
<hr>
<%
Dim fso, file, line
Set fso = Server.CreateObject("Scripting.FileSystemObject")
Set file = fso.OpenTextFile(Server.MapPath("guests.txt"), 1)
Do While Not file.AtEndOfStream
    line = file.ReadLine
    Response.Write line & "<br>" & vbCrLf
Loop
file.Close
%>
<p>It is <%= Now %>, and you are reading this from <%= Request.ServerVariables("REMOTE_ADDR") %>.</p>
</body></html>
