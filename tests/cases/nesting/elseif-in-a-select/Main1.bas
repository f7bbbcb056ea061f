Sub Main()
    Select Case a
    ElseIf b Then
    End Select
End Sub
