<%
' A class with a constructor, a terminator and a property that calls a procedure of the class.
Class Box
    Private things

    Private Sub Class_Initialize
        Set things = CreateObject("Scripting.Dictionary")
        things.CompareMode = 1
    End Sub

    Public Sub Put(name, number)
        things(name) = things(name) + number
    End Sub

    Public Property Get Total
        Dim name
        For Each name In things
            Total = Total + things(name)
        Next
    End Property

    Public Property Get Kinds
        Kinds = things.Count
    End Property

    Private Sub Class_Terminate
        Response.Write "The box is gone."
    End Sub
End Class

Dim shelf
Set shelf = New Box
shelf.Put "cup", 2
shelf.Put "Cup", 1
shelf.Put "jar", 4
Response.Write shelf.Kinds & " kinds, " & shelf.Total & " things. "
Set shelf = Nothing
%>
