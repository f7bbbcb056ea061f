Sub Main()
    If a Then 10: b
End Sub
