Sub Main()
    _a = 1
End Sub
