Sub Main()
    a = 5$
End Sub
