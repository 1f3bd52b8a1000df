Six boxes of twelve bottles: <%= 12 + 12 + 12 + 12 + 12 + 12 %>
With one more bottle: <%= 72 + 1 %>
