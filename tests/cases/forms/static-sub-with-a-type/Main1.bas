Static Sub A() As Long
End Sub
