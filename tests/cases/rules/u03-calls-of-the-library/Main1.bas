Sub Main()
    Dim n As Long, s As String
    n = Len()
    n = Len("a", "b")
    n = Len(5)
    s = Left("abc", 2)
    s = Left(n, 2)
    s = Left$("abc", n)
    s = Left("abc", "2")
    s = Mid("abc", , 2)
    s = Mid("abc", 1)
    Trim s
    s = Trim(s)
    s = Trim
    s = UCase%(s)
    s = Chr(65)
    s = Chr$(n)
    s = Hex(n)
    s = Format(n, "0")
    s = vbNullChar
    s = vbNullString
    n = InStr(s, "a")
    n = InStr(1, s, "a")
    MsgBox "a" & n
    MsgBox "a", 1
    MsgBox n
    s = InputBox("a")
    InputBox "a"
    n = CInt(n)
    n = CInt(40000)
    n = CByte(256)
    n = CDbl(n)
    n = Val(s)
    n = IsEmpty(n)
    n = Abs(-n)
    n = Asc(s)
    n = Fix(n)
End Sub
