Sub Main()
    a = "one _
two"
End Sub
