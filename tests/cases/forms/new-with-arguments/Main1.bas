Sub Main()
    Dim a As New C(1)
End Sub
