Sub Main()
    ? a
End Sub
