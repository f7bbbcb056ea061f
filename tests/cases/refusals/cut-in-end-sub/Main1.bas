Sub Main()
Debug.Print "hi"
End Su