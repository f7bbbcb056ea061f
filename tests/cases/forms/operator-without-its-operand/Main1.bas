Sub Main()
    a = b +
End Sub
