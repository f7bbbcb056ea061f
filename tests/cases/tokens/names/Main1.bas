Sub Main()
    Dim a_1 As Long, B%, [c] As Long, Rem1 As Long, E&
    A_1 = 1
    b = 2
    [C] = A_1&
    rem1 = [rem1]
    e = 3
End Sub
