<%@ ENABLESESSIONSTATE=False %><%
' The list is taken out and filled anew, under the lock.
Application.Lock
Application.Contents.RemoveAll
For i = 1 To 200000 : Next
Application("tea") = 4
Application("milk") = 2
Application.Unlock
%>filled
