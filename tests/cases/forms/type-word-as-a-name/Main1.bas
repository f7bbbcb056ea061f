Sub Main()
    Dim Integer
End Sub
