Sub Main()
    Debug.Print ""
    Debug.Print "a b"
    Debug.Print "a""b"
    Debug.Print """"
    Debug.Print "a	b"
    Debug.Print "it's"
End Sub
