Sub Main()
    a = #1/2/2000
End Sub
