Sub Main()
    With
    End With
End Sub
