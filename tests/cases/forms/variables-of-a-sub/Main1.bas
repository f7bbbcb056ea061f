Sub Main()
    Dim a, b As Variant
    Dim c(), d(3) As Long, e(1 To 2, 3) As String
    Dim f As New C, g As Lib.C
    Dim h As String * 5, i As String * LENGTH
    Dim j!, k#, l As Date
    Static m As Long
    Const N = 1, O As Long = 2, P$ = "x"
    Private Const Q = 3
    Dim r As Long, s$
End Sub
