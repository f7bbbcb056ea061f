Sub Main()
    a = b&c
End Sub
