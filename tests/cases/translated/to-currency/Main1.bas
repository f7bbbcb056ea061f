Sub Main()
    Dim n As Long, c As Currency
    c = 5
    c = 5@
    c = 2.5
    c = -1.5
    c = .5
    c = 9999999999
    c = 0.0001@
    c = 922337203685477.5807@
    c = n
End Sub
