Sub Main()
    Dim t As Boolean, b As Byte, i As Integer
    b = 200
    b = t
    b = i
End Sub
