Sub Main()
    Dim a As New
End Sub
