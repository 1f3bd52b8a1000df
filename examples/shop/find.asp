<%@ LANGUAGE=VBScript %>
<html>
<head><title>Find</title><link rel="stylesheet" href="/style.css"></head>
<body>
<form action="/found.asp" method="get">
<input name="thing" value="<%= Server.HTMLEncode(Request.QueryString("thing")) %>"> <input name="pieces" value="1"> <input type="submit" value="Find">
</form>
</body>
</html>
