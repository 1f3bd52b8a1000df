<%@ LANGUAGE="VBScript" CODEPAGE="1252" %>
<% On Error Resume Next
user = Request.ServerVariables("LOGON_USER")
If user = "" Then user = Request.Form("user")
Set re = New RegExp
re.Pattern = "^[a-z]+$"
If re.Test(user) Then
  Session("user") = user
  Response.Cookies("user") = user
  Response.Cookies("user").Expires = Now + 365
  Response.Redirect "default.asp"
Next
End If
%>
<form method="post"><input name="user"></form>
