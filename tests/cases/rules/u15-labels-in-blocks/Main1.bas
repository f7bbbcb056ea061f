Sub Main()
    Dim n As Long
    Dim b As Box
    GoTo Inside
    With b
Inside:
        n = 1
        For n = 1 To 2
            GoTo Deep
            GoTo Inside
        Next
        For n = 1 To 2
Deep:
        Next
    End With
    Resume Deep
    If n = 1 Then
Here:
    End If
    GoTo Here
    Do
        For n = 1 To 2
            Exit Do
            Exit For
        Next
        Exit For
    Loop
    Exit Property
    While n = 1
        Exit Do
    Wend
End Sub
Function F() As Long
    Exit Sub
    Exit Function
End Function
