Sub Main()
    Dim a(1 To)
End Sub
