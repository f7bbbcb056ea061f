Sub Main()
    While a
        b
    End While
End Sub
