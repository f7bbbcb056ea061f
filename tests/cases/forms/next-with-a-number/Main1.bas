Sub Main()
    Next i, 5
End Sub
