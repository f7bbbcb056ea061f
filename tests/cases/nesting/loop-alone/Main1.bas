Sub Main()
    Loop
End Sub
