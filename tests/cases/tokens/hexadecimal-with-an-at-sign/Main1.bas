Sub Main()
    a = &H1@
End Sub
