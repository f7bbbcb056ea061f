Private code As String * 3

Sub Show(ByVal s As String * 3)
End Sub

Sub Change(s As String)
    s = "x"
End Sub

Function Size(s As String) As Long
    Size = Len(s)
End Function

Sub Main()
    Dim n As Long
    Static kept As String * 5
    Dim list(2) As String * 4
    Dim f As String * 3
    Change f
    Change (f)
    n = Size(f)
    n = Size(code)
    f = "abcd"
End Sub
