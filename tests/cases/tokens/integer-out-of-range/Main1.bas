Sub Main()
    a = 32768%
End Sub
