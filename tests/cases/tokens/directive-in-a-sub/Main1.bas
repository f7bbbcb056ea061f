Sub Main()
    a = 1
    #Const b = 1
End Sub
