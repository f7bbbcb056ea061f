Option Base 1
Private a() As Long
Private b(3) As Long
Private c(3, 0 To 2) As Long
Private d() As Long
Private e() As String
Sub Main()
    Dim n As Long
    ReDim a(5)
    ReDim a(1 To n)
    ReDim b(3)
    ReDim d(3)
    ReDim d(3, 3)
    ReDim Preserve a(9)
    n = UBound(a)
    n = UBound(c, 2)
    n = UBound(a, 2)
    n = UBound(n)
    n = LBound(c, n)
    n = c(1, 2)
    n = c(1)
    a = e
    a = n
    n = a
    Fill a
    Fill b
    Fill e
    Fill (a)
    Fill
    Fill n
    Look b
    Grow n
    Grow a(1)
    Grow (a(1))
    Grow a(1) + 0
    n = Twice(a(1))
End Sub
Sub Fill(t() As Long)
    ReDim t(0 To 3)
End Sub
Sub Look(t() As Long)
    Debug.Print t(1)
End Sub
Sub Grow(k As Long)
    k = 1
    Erase a
End Sub
Function Twice(k As Long) As Long
    Twice = k + k
End Function
