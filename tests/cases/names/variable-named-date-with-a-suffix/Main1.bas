Sub Main()
    Dim Date$
End Sub
