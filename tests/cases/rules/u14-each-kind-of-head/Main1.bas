Sub Main()
    Dim n As Long, i As Integer
    Dim a(3) As Long, b As Box, c As New Box, v As Variant, s(2) As String
    On Error Resume Next
    If a(1) = 1 Then
    ElseIf n + 1 = 2 Then
    ElseIf n = 2 Then
    Else
    End If
    If b.N = 1 Then n = 1
    If c Is Nothing Then n = 1
    If b Is Nothing Then n = 1
    If v = 1 Then n = 1
    If IsEmpty(v) Then n = 1
    If Len("a") = 1 Then n = 1
    If Len(s(1)) = 1 Then n = 1
    If n Then n = 1
    If CInt(n) Then n = 1
    If CLng(i) = n Then n = 1
    If CBool(n) Then n = 1
    For n = i To 5
    Next
    For i = n To 5
    Next
    While n = 5
    Wend
    While Left("a", n) = "a"
    Wend
    Do
    Loop Until n \ 1 = 1
    With b
    End With
    With c
    End With
    Select Case n
    Case 1, 2 To 3
    Case n + 1
    Case Is > 4
    Case CByte(5)
    End Select
    If -1 = n Then n = 1
    If "a" & n = "a1" Then n = 1
    If Not n = 1 Then n = 1
    If Peek() = 1 Then n = 1
End Sub
Function Peek() As Long
End Function
