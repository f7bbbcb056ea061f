Sub Main()
    Dim t As Boolean, n As Long, c As Currency, s As String
    s = s + s
    s = n & s
    s = c & t
    s = 1 & 2 & 3
End Sub
