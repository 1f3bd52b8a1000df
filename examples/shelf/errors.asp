<%
' Errors: the first is handled, and what failed is left as it was. The second ends the page with its line.
Dim prices
Set prices = CreateObject("Scripting.Dictionary")
prices.Add "tea", CCur("2.50")

On Error Resume Next
prices.Add "tea", CCur("3")
If Err.Number <> 0 Then Response.Write "Refused: " & Err.Description & ". "
On Error GoTo 0

Response.Write "Tea is " & prices("tea") & ". "
Response.Write 1 \ (prices.Count - 1)
%>
