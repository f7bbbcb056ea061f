Private list() As Long
Sub Two(a As Long, ByVal b As Long)
    a = b
End Sub
Function Shrink() As Long
    Erase list
End Function
Property Get P(i As Long, ByVal j As Long) As Long
    P = i + j
End Property
Sub Main()
    Dim n As Long, k As Long, i As Integer
    Dim own(3) As Long, w(3) As Integer, b As Box
    Two own(1), Shrink()
    Two (own(1)), Shrink()
    Two k, Shrink()
    Two w(1), Shrink()
    Two list(1), Shrink
    Two list(1), 5
    n = P(k, Shrink())
    n = P(5, Shrink())
    n = P(k, 5)
    n = P(list(1), 5)
    n = P(list(1), Shrink())
    n = P(i, 5)
    Two b.N, 1
    Two (b.N), 1
    Two b.N, Shrink()
    n = P(b.N, 1)
    n = P(b.N, Shrink())
    Two b.A(1), 1
    Two b.A(1), Shrink()
End Sub
