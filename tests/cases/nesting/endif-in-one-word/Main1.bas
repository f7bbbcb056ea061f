Sub Main()
    If a Then
        b
    EndIf
End Sub
