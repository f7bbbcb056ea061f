Sub Main()
    Loop% = 1
End Sub
