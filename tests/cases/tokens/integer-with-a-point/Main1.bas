Sub Main()
    a = 1.5%
End Sub
