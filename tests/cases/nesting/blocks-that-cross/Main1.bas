Sub Main()
    For i = 1 To 3
    Do
    Next
    Loop
End Sub
