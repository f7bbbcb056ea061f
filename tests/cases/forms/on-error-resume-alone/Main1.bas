Sub Main()
    On Error Resume
End Sub
