</div>
<% End If %>
</body></html>
