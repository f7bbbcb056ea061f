Sub Main()
    Case 1 To
End Sub
