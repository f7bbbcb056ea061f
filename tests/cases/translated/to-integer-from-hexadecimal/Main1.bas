Sub Main()
    Dim i As Integer
    i = &O17
    i = &Hffff
    i = &O177777
    i = &H0
End Sub
