Sub Main()
    Dim n As Long, c As Currency
    c = c + 0.0001@
    c = c * 2
    c = n * c
End Sub
