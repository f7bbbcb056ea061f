Sub Main()
    If a Then If b Then
        c
End Sub
