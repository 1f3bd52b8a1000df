<html><body>
<% If Request("vote") = "" Then %>
<form action="default.asp" method=get>
<input type=radio name=vote value=1> Yes
<input type=radio name=vote value=2> No
<input type=submit></form>
<% Else
Application.Lock
Application("vote" & Request("vote")) = Application("vote" & Request("vote")) + 1
Application.Unlock
all = Application("vote1") + Application("vote2")
percent = Application("vote1") * 100 / all
Response.Write "Yes: " & FormatPercent(percent)
End If %>
<p>Tip of the day: <!-- #include file="tip.asp" --></p>
<p>Made in <%= Timer - t %> seconds</p>
</body></html>
