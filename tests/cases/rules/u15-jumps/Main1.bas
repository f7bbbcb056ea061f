Sub Main()
    Dim n As Long
    GoTo Inside
    For n = 1 To 2
Inside:
        GoTo Inside
        Exit For
    Next
    Exit For
    On Error GoTo Inside
    GoTo Away
    Do
Away:
        Exit For
        Exit Do
    Loop
    Exit Function
    Exit Sub
End Sub
