Sub Main()
    Exit While
End Sub
