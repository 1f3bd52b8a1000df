<% = Application("vote1") %> to
<%
   = Application("vote2")
%>
