Const A = 32767 + 1
Const B = C
Const C = B
Const D = 32767& + 1

Sub Main()
    Dim i As Integer, n As Long, y As Byte
    i = 32767 + 1
    y = 256
    n = 1 \ 0
    Dim t(5 To 4) As Long
    Dim s As String * 0
    Dim r(n) As Long
    Dim u(5 To 5) As Long
    i = 32767
    n = 32767& + 1
    i = n + 1
    y = 200 + 100
    n = 1 \ n
    n = D
End Sub

Sub Kept()
    Dim y As Byte
    Debug.Print 32767 + 1
    y = -1
End Sub
