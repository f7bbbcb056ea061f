Sub Main()
    Const a
End Sub
