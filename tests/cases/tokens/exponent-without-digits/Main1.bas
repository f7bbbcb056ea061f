Sub Main()
    a = 1E
End Sub
