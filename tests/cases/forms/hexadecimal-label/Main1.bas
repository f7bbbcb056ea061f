Sub Main()
    GoTo &H10
End Sub
