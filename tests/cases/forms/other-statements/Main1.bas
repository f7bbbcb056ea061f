Sub Main()
    LSet a = b
    RSet a.c = b
    RaiseEvent Done(1, 2)
    Mid(a, 1, 2) = b
    Mid$(a, 3) = b
    Debug.Assert a > 1
    Debug.Print a, b
    Debug.Print Tab(3); a
    Form1.Circle (1, 2), 3
    Form1.Line (0, 0)-(10, 10), a
    Printer.Print a, b; c
    .PSet Step(1, 2)
End Sub
