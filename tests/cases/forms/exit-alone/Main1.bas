Sub Main()
    Exit
End Sub
