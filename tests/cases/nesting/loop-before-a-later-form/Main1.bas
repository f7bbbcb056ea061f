Sub Main()
    Loop
    b = = c
End Sub
