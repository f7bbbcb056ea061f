Sub Main()
End Sub

Private Sub Class_Terminate()
    Debug.Print "a Sub like any other"
End Sub
