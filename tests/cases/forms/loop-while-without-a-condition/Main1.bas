Sub Main()
    Loop While
End Sub
