<% Randomize
n = Int(Rnd * 3) + 1
Execute "tip = tip" & n
x = Eval("1 + 1") %>
<%= tip %>
