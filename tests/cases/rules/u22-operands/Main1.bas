Sub Main()
    Dim n As Long, s As String, b As Byte, c As Currency
    n = s - 1
    n = -s
    n = Not b
    c = c * c
    For c = 1 To 2
    Next
    s = s + s
    n = Not n
    n = b + b
    n = b And b
    c = c * n
    c = c + c
    For n = 1 To 2
    Next
End Sub
