Sub Main()
    For i As Long = 1 To 3
    Next
End Sub
