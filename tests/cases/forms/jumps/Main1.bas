Sub Main()
    GoTo Over
    GoTo 010
    GoSub Part
    On n GoTo Over, 10
    On n + 1 GoSub Part, 10
    Return
    Stop
    End
010 a
Over:
Part: b
End Sub
