Private Type Row
    Cells(3) As Long
End Type

Function All() As Long()
End Function

Sub Main()
    Dim n As Long
    Dim b(3) As Long, c() As Long, d() As Long, r As Row
    Dim a(1, 1, 1) As Long
    Dim lines(3) As Row
    b(1, 2) = 5
    Erase b
    ReDim n(3)
    ReDim d(1, 1)
    ReDim Preserve d(1, 1)
    d(1, 1) = 5
    ReDim Preserve c(3)
    Erase c
    c = b
    r.Cells(1) = b(2)
End Sub
