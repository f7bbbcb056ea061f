Sub Main()
    Loop: a
End Sub
