Sub Show()
Debug.Print "half a line end"
End Sub