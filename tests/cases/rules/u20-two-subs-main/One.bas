Sub Main()
    Debug.Print "one"
End Sub
