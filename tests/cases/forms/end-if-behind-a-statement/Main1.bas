Sub Main()
    If a Then b End If
End Sub
