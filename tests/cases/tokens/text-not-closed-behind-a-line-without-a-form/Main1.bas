Sub Main()
    a = = 1: b = "x
End Sub
