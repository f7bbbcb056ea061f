Sub Main()
    If a Then
    Case 1
End Sub
