Sub Main()
    a = 1: #If b Then
End Sub
