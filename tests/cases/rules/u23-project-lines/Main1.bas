Sub Main()
    Debug.Print "main"
End Sub
