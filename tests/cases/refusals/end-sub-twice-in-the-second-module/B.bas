Sub Go()
End Sub
End Sub
