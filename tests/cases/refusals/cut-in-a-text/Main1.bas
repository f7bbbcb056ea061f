Sub Main()
Debug.Print "h