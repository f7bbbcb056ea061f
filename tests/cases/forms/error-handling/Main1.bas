Sub Main()
    On Error GoTo Failed
    On Error GoTo 10
    On Error GoTo 0
    On Error Resume Next
    On Error GoTo
    On Error GoTo -1
    Resume
    Resume 0
    Resume Next
    Resume Failed
10  Resume 10
Failed:
    Err.Raise 5
    Err.Clear
End Sub
