Sub Main()
    If a Then
    Else If b Then
    End If
End Sub
