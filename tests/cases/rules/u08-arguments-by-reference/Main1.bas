Sub Raise(n As Long)
    n = n + 1
End Sub

Function Twice(n As Long) As Long
    Twice = n + n
End Function

Sub Main()
    Dim i As Integer, n As Long
    Dim b As Box
    Raise i
    Raise b.Size
    Raise n
    Raise (i)
    Raise i + 1
    n = Twice(i)
    n = Twice(b.Size)
End Sub
