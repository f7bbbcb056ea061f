Option Compare Binary

Sub Work()
    Debug.Print "a" = "A"
End Sub
