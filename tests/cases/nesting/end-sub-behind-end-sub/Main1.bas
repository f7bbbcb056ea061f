Sub Main()
End Sub: End Sub
