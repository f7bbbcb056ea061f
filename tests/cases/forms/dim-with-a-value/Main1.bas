Sub Main()
    Dim a = 1
End Sub
