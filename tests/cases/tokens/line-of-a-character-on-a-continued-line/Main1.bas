Sub Main()
    a = 1 + _
        2 + ?
End Sub
