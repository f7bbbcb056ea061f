Sub Main()
    For i = 1
End Sub
