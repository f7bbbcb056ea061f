Sub Main()
    Do
End Sub
