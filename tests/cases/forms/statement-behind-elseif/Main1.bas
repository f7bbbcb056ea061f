Sub Main()
    If a Then
    ElseIf b Then c
    End If
End Sub
