Sub Main()
    Dim t As Boolean, b As Byte, i As Integer, n As Long, c As Currency, s As String
    Debug.Print b; i; n; t; s; c
    Debug.Print s
    debug.print (n) + 1
    Debug.Print (t) = t
    Debug.Print
End Sub
