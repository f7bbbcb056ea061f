Sub Main()
    Dim n As Long, s As String
    Dim c As Cell, l As List, o As Loop1, v As Variant
    n = c
    c = 5
    c = n
    c = s
    s = c
    n = c + 1
    If c Then n = 1
    Debug.Print c
    n = l(1)
    l(1) = n
    n = l
    l = 5
    n = o
    v = c
    v = o
    n = Len("" & c)
    Take c
    Change c
    n = c.Value.X
    n = c.Value
    n = l.Item(2)
End Sub
Sub Take(ByVal n As Long)
End Sub
Sub Change(n As Long)
    n = 1
End Sub
