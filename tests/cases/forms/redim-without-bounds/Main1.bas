Sub Main()
    ReDim a
End Sub
