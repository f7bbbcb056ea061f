Sub Main()
    b Else c
End Sub
