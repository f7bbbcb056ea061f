Sub Main()
    Debug.Print "aéb"
End Sub
