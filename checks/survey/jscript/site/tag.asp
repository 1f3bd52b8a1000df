<script language="vbscript"runat="server">
Sub Secret : password = "x" : End Sub
</script>
<p>it is sent as it stands</p>
<%@ language="vbscript" %>
