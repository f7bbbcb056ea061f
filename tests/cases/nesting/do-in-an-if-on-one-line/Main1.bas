Sub Main()
    If a Then Do
End Sub
