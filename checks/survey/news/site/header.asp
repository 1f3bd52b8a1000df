<html><body>
<% If Session("design") = "old" Then %>
<font face="Arial">
<% Else %>
<div class="new">
