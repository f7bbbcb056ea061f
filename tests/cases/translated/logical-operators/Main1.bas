Sub Main()
    Dim t As Boolean, b As Byte, i As Integer, n As Long, c As Currency
    t = Not n = 5
    n = Not c
    t = t And i
    n = n Or i Xor n
    n = i Eqv n
    t = t Imp t
    n = b And b
    b = b And 1
End Sub
