Sub Main()
    a = 1E5%
End Sub
