<%@ ENABLESESSIONSTATE=False %><%
' One read: with a strict lock it finds the price before or the price behind, and never none.
price = Application(CStr(Request.QueryString("of")))
If IsEmpty(price) Then Response.Write "no price" Else Response.Write price
%>
