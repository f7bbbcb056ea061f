Sub String()
End Sub
