Const K As Byte = 255
Const L As Byte = K + 1
Const M = K + 1
Const T = "5" + 5
Const U As Long = "5"
Const V As Currency = 1.5 * 2
Const W As Currency = -1.5
Const X = 2 ^ 3
Const Y = Not 5
Const Z As Boolean = 5
Const S1 As String = 5
Const D1 = Asc("a")
Const E1 = vbCrLf & "x"
Const F1 = L
Const G1 = 1 + T
Sub Main()
    Dim i As Integer, b As Byte, s As String, n As Long, t1 As Boolean
    i = K * 200
    i = K
    b = M
    s = M
    b = M - 1
    i = 40000
    n = M
    b = -K
    t1 = M
End Sub
