Sub Main()
    For i = 1 To 2
    If a Then Next
    Next
End Sub
