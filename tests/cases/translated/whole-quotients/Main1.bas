Sub Main()
    Dim i As Integer, n As Long, c As Currency
    n = 7 \ n
    n = c \ 2
    n = i Mod 3
End Sub
