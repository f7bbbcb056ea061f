Sub Main()
    a = &H10000%
End Sub
