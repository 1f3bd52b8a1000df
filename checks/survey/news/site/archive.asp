<!--#include file="lib/util.vbs"-->
<!--#include file="lib/util.lib"-->
<%= Stamp("2000") %>
