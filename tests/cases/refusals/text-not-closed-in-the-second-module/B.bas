Sub Go()
Dim s As String

' text


s = "abc
End Sub
