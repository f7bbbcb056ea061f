Sub Show()
Debug.Print "no line end"
End Sub