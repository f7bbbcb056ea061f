Sub Main()
    If a
    End If
End Sub
