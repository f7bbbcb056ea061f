Sub Main()
    Dim a,
End Sub
