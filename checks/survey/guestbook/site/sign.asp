<%
' writes one entry, with the date and time
Dim who, text
who = Server.HTMLEncode(Request.Form("who"))
text = Server.HTMLEncode(Request.Form("text"))
If Len(text) > 0 And IsDate(Request.Form("when")) Then
    Set fso = CreateObject("Scripting.FileSystemObject")
    Set file = fso.OpenTextFile(Server.MapPath("guests.txt"), 8, True)
    file.WriteLine who & " (" & FormatDateTime(Date, vbShortDate) & "): " & text
    file.Close
End If
Response.Redirect "default.asp"
%>
