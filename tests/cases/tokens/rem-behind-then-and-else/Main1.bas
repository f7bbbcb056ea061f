Sub Main()
    If a Then Rem opens a block
        b
    End If
    If a Then b Else Rem nothing else
End Sub
