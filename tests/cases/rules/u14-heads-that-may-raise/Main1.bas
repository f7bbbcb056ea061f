Private list() As Long

Sub Main()
    Dim n As Long, i As Integer
    On Error Resume Next
    If list(n) > 0 Then n = 1
    Do While n + 1 > 0
    Loop
    Select Case n \ 2
    Case 1
    End Select
    For n = 1 To 3 Step -1
    Next
    If n > 0 And i = 1 Then n = 1
    Do While n > i
    Loop
    For n = 1 To 3
    Next
    If Err.Number <> 0 Then n = 2
    n = n + 1
End Sub

Sub Work()
    Dim n As Long
    On Error GoTo Failed
    If n + 1 > 0 Then n = 1
Failed:
End Sub
