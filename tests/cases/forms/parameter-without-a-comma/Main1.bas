Sub A(b As Long c As Long)
End Sub
