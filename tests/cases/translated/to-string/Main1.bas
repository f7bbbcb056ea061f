Sub Main()
    Dim t As Boolean, n As Long, c As Currency, s As String
    s = 5
    s = t
    s = n
    s = c
    s = ""
    Let s$ = "a""b"
End Sub
