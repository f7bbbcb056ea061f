Sub Main()
    Debug.Print "a"; "b"; "b"; "b"; "b"; "b"; "b"; "b"; "b"; "b"; "b"; "b"; "b"; "b"; "b"; "b"; "b"; "b"; "b"; "b"; "b"; "b"; "b"; "b"; "b"; "b"; "b"; "b"; "b"; "b"; "b"; "b"; "b"; "b"; "b"; "b"; "b"; "b"; "b"; "b"; "b"; "b"; "b"; "b"; "b"; "b"; "b"; "b"; "b"; "b"; "b"; "b"; "b"; "b"; "b"; "b"; "b"; "b"; "b"; "b"; "b"; "b"; "b"; "b"; "b"
End Sub
