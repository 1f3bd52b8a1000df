<%@ LANGUAGE=VBScript %>
<% Option Explicit %>
<!--#include virtual="/inc/basket.inc"-->
<html>
<head><title>Boxes</title><link rel="stylesheet" href="/style.css"></head>
<body>
<h1>Boxes</h1>
<%
Dim order, name
Set order = New Basket
order.Add "bottles", 12
order.Add "lamps", 2
order.Add "bottles", 6
%><ul>
<% For Each name In order.Names %><li><%= order.Count(name) %> <%= name %></li>
<% Next %></ul>
<p><%= order.Total %> pieces in all.</p>
</body>
</html>
