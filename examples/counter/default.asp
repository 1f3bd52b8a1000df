<% Session("seen") = Session("seen") + 1 %><%= Application("title") %>: visitor <%= Application("visits") %>, page <%= Session("seen") %> of session <%= Session.SessionID %>.
