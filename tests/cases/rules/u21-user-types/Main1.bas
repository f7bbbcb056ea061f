Private Type Part
    N As Long
    S As String * 4
End Type
Sub Main()
    Dim n As Long
    Dim p As Part, q As Part
    p = q
    n = p
    p = n
    Debug.Print p
    n = p + 1
    n = p.M
    n = n.N
    n = n(1)
    Set p = q
    p.S = n
    n = Len(p.S)
    n = p.S
    p.N.M = 1
    n.N = 1
    p.N
    n = Len(p)
    n = Abs(p)
End Sub
