Sub Main()
    Set a
End Sub
