Sub Main()
    Erase a(1)
End Sub
