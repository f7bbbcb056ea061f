Sub Main()
    Dim i As Integer, n As Long, c As Currency
    i = -i
    n = - -n
    c = -c
End Sub
