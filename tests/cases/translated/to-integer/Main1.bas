Sub Main()
    Dim t As Boolean, i As Integer, n As Long, c As Currency
    i = 5
    i = 010%
    i = 5&
    i = -32768
    i = t
    i = n
    i = c
End Sub
