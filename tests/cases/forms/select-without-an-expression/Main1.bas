Sub Main()
    Select Case
End Sub
