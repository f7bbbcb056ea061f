Sub Main()
    Dim WithEvents a As C
End Sub
