Static Sub String()
End Sub
