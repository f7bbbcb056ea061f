Private Sub MAIN()
    Debug.Print "two"
End Sub
