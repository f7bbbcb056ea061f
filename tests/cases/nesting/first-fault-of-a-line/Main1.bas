Sub Main()
    b: Next: Else
End Sub
