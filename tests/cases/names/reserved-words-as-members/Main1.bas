Sub Main()
    a.Next = 1
    a!End = 1
    With a
        .Loop = .To + 1
        .Sub
    End With
End Sub
