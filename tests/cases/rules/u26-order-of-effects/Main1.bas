Private a(9) As Long
Private list() As Long
Private n As Long

Function Take() As Long
    n = n + 1
    Take = n
End Function

Function Twice(ByVal i As Long) As Long
    Twice = i + i
End Function

Sub Main()
    Dim i As Long
    a(i) = Take()
    a(Take()) = i
    list(1) = Take()
    ReDim Preserve list(Take())
    ReDim list(Take())
    a(5) = Take()
    a(Take()) = 5
    a(i) = Twice(i)
    i = Take() + Take()
End Sub
