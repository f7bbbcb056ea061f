Sub Main()
    a: 10
End Sub
