Sub Main()
    Debug.Print True
    Debug.Print &HFFFF
    Debug.Print 1; -1@
End Sub
