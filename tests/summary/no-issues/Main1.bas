Sub Main()
    Debug.Print "hello"
End Sub
