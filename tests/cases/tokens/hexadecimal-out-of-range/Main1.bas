Sub Main()
    a = &H100000000
End Sub
