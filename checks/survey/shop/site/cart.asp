<%
Response.Cookies("cart").Expires = DateAdd("d", 30, Date)
Response.Cookies("cart")("size") = 1
price = 9.95 * Request("count")
tax = price * 16 / 100
If Request("gift") = "yes" Then price = price + .50
Response.Write Round(price + tax, 2)
%>
