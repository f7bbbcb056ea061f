Sub Main()
    Dim n As Long, s As String, t As Boolean, y As Byte
    Dim v As Variant, o As Object
    v = v + 1
    v = s & v
    t = o Is 5
    t = o Is Nothing
    t = o = Nothing
    n = o + 1
    t = s And t
    s = s - s
    t = s < s
    t = s < 5
    n = s Mod 2
    t = v < s
    v = v / 2
    v = -v
    v = Not v
    v = v + Nothing
    t = -t Is Nothing
    n = v Mod 2
    s = v
    s = Nothing
    n = Nothing
    n = Empty
    s = Empty
    t = Empty = v
    n = CLng(v)
    n = CInt(n)
    n = CLng(s)
    s = CStr(n)
    n = t + y
End Sub
