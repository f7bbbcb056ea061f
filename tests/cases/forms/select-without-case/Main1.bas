Sub Main()
    Select a
    End Select
End Sub
