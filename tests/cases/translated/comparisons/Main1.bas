Sub Main()
    Dim t As Boolean, b As Byte, i As Integer, n As Long, s As String
    t = n > 5
    t = b <= i
    t = s < s
    t = t <> True
    t = t = i
End Sub
