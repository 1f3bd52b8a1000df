<%@ Language=VBScript %>
<% Option Explicit
Response.Expires = 0
Response.Buffer = True %>
<!-- #include virtual="/inc/adovbs.inc" -->
<!-- #include file="inc/db.inc" -->
<%
Dim rs, total
Set rs = Server.CreateObject("ADODB.Recordset")
rs.Open "SELECT * FROM items", conn, adOpenStatic, adLockReadOnly
total = 0
%>
<table border=1>
<% Do While Not rs.EOF %>
<tr><td><%= rs("name") %></td><td><%= FormatCurrency(rs("price")) %></td></tr>
<% total = total + CDbl(rs("price"))
rs.MoveNext
Loop %>
</table>
<p>Sum: <%= FormatNumber(total, 2) %></p>
