Sub Main()
    Select Case a + 1
        Case 1
            b
        Case 1, 2 To 3, "x"
        Case Is > 4, Is <> 5, Is <= 6
        Case Is = 7: c
        Case Else
            d
        Case 8
    End Select
    Select Case a
    End Select
End Sub
