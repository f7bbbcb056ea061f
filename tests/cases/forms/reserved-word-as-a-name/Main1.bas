Sub Main()
    Dim To
End Sub
