Sub Main()
    ReDim a(3)
    ReDim a(1 To 3), b(n, 1 To m)
    ReDim Preserve a(3) As Long
    ReDim a.b(3) As String * 5, c$(1)
    ReDim a(1).b(2)
    Erase a
    Erase a.b, c
End Sub
