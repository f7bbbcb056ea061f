Sub Main()
    [a b] = 1
End Sub
