Sub Main()
    If a Then:
End Sub
