Sub Main()
    Open "f" For Binary Access Read As #1 Len = 20
    Print #1, a; b, Tab(3)
    Write #1, a, b
    Input #1, a, b
    Line Input #1, a
    Get #1, 2, a
    Put #1, , a
    Seek #1, 3
    Lock #1, 1 To 5
    Unlock #1, 1 To 5
    Close #1, #2
    Close
    Name "f" As "g"
    Kill "g"
    Error 5
    Load Form1
    Unload Form1
End Sub
