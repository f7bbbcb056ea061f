Sub Main()
    Do
        Exit Do
    Loop
    For i = 1 To 3
        Exit For
    Next
    Exit Sub
    Exit Function
    Exit Property
End Sub
