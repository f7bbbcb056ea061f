Private a() As Long
Private b() As Long

Sub Main()
    Dim n As Long
    Dim c() As Long, d(1 To 3) As Long
    Dim e() As Long
    ReDim a(1 To 5)
    ReDim a(5)
    ReDim b(n)
    ReDim b(0 To n)
    ReDim c(n To 9)
    ReDim c(1 To n)
    c = d
    ReDim e(5)
    Fill e
End Sub

Sub Fill(t() As Long)
    ReDim t(2 To 3)
End Sub
