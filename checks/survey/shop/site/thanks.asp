<html><body>
Thank you, <%= Server.HTMLEncode(Request("name")) %>! Your number is <%= Session("order") + 0 %>.
</body></html>
