<%@ LANGUAGE="JScript" %>
<% var now = new Date(); %>
<%= now.getYear() %>
