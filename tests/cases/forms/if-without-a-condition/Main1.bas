Sub Main()
    If Then b
End Sub
