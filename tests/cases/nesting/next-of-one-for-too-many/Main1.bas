Sub Main()
    For i = 1 To 2
    Next i, j
End Sub
