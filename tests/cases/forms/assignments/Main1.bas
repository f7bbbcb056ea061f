Sub Main()
    Dim n As Long
    Let a = 1
    a.b = 1
    a!b = 1
    a(1, 2) = 1
    a().b(1) = n
    Me.a = n
    Set a = b
    Set a.b(1) = New C
    Set a = New Lib.C
    Set a = Nothing
    With a
        .b = n
        !c = n
        Set .b = .c
    End With
End Sub
