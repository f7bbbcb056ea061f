Sub Main()
    Type t
    End Type
End Sub
