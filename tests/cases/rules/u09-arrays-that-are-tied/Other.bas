Public a() As Long
Private Type Part
    L() As Long
End Type
Sub Work()
    Dim p As Part
    ReDim a(3)
    ReDim p.L(2)
    ReDim Preserve p.L(4)
    ReDim Preserve p.L(4, 4)
    Erase p.L
End Sub
