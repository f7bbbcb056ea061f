Sub Main()
    Dim n As Long, c As Currency
    n = 5
    n = 32767
    n = 32768
    n = 2147483647
    n = c
End Sub
