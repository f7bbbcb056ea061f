Sub Main()
    Do
    Else
End Sub
