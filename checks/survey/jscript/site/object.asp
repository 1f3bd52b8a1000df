<p>text</p>
<OBJECT RUNAT="Server" ID="dict" PROGID="Scripting.Dictionary"></OBJECT>
<object classid="clsid:D27CDB6E" width="100"></object>
<OBJECT RUNAT=Server ID=browser PROGID="MSWC.BrowserType"></OBJECT>
<% dict.Add "a", Timer %>
