Sub Main()
    a $ = "x"
End Sub
