<!--#include virtual="/lib/util.lib"-->
<% Function Time : Time = "noon" : End Function %>
<%= Stamp("1999") %>
