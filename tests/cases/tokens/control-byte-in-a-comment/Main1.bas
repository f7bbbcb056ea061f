Sub Main()
    ' 
End Sub
