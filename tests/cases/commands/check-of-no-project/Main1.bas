Sub Main()
Debug.Print "hi"
End Sub
