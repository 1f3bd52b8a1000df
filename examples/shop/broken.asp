<html>
<body>
<% Dim total, boxes
   total = 12 %>
<p><%= total \ boxes %> in each box</p>
</body>
</html>
