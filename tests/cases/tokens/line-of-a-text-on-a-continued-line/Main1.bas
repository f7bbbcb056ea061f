Sub Main()
    a = "x" & _
        "y" & _
        "z
End Sub
