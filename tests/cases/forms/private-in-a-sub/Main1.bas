Sub Main()
    Private a As Long
End Sub
