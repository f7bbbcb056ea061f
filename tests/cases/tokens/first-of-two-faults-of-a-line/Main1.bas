Sub Main()
    a = 5$: b = "x
End Sub
