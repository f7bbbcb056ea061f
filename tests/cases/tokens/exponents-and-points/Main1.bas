Sub Main()
    Dim n As Long
    n = 1E5
    n = 1.5E+3
    n = 25D-1
    n = .5
    n = 5.
    n = 5!
    n = 5#
    n = 12345678901
    n = 1.12345
    n = 1.00005@
End Sub
