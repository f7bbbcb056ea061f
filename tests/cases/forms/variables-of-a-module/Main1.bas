Dim a
Static b As Long
Public c(3) As Long, d$
Private e As New C
Global f As Lib.C
Public g As String * 5
Const H = 1
Public Const I As Long = 2, J = 3
Global Const K = "x"
