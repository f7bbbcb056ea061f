Sub Main()
    GoTo x$
End Sub
