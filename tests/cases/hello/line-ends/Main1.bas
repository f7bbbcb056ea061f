Sub Main()
Debug.Print "LF, then CR"End Sub

