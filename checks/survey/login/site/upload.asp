<%
count = Request.TotalBytes
bytes = Request.BinaryRead(count)
Response.BinaryWrite bytes
Set cert = Request.ClientCertificate("Subject")
Set problem = Server.GetLastError()
Response.PICS "(PICS-1.1)"
For Each o In Session.StaticObjects : Next
For Each o In Application.StaticObjects : Next
Session.CodePage = 1252
%>
