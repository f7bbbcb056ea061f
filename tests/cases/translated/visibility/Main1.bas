Sub Main()
End Sub

Public Sub Shown()
End Sub

Private Sub Hidden()
End Sub

Friend Sub Near()
End Sub
