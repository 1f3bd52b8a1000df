<script language="JavaScript" runat="server">
function stamp() { return new Date(); }
</script>
<script language="VBScript" runat="server" src="lib.vbs"></script>
<script language="JavaScript">
document.write("in the browser: " + new Date());
</script>
<p>text</p>
<% Response.Write Now %>
