Sub Main()
End Sub: a
