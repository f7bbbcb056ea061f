End Sub
