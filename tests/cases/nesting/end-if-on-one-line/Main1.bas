Sub Main()
    If a Then End If
End Sub
