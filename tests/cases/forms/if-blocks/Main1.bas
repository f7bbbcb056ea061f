Sub Main()
    If a Then
        b
    ElseIf c Then
        d
    ElseIf e Then: f
    Else: g
    End If
    If a Then 'why
    Else
    ElseIf b Then
    Else
    End If
End Sub
