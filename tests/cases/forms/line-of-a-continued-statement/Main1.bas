Sub Main()
    a = _
        = _
        1
End Sub
