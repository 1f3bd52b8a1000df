<p><%= Rnd %></p>
<% Response.Write "no end"
x = Now
