Sub Main()
    If a Then
    End Select
End Sub
