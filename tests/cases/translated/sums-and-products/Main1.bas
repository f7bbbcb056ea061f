Sub Main()
    Dim t As Boolean, b As Byte, i As Integer, n As Long
    i = b + 100
    b = b + 1
    n = t + 1
    i = 1 - i - i
    n = 2 + n * (3 - n)
    n = i * n
End Sub
