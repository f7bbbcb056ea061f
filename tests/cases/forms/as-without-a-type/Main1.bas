Sub Main()
    Dim a As
End Sub
