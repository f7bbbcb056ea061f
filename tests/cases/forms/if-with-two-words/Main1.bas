Sub Main()
    If a b Then c
End Sub
