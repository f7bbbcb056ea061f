Sub Main()
    a += 1
End Sub
