Sub Main()
End Sub
' a _
b _