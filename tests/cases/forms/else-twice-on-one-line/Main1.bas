Sub Main()
    If a Then b Else c Else d
End Sub
