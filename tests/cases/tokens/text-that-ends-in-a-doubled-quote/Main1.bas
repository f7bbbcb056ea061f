Sub Main()
    a = "one""
End Sub
