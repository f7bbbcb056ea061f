Const K = 5

Function Give() As Long
End Function

Sub Main()
    Dim n As Long, s As String, t As Boolean
    Dim b As Box, v As Variant
    n = s
    t = "True"
    Set n = Nothing
    K = 6
    Give = 6
    Select Case s
    Case 5
    End Select
    s = n
    s = t
    t = n
    n = K
    n = Give
    v = s
    n = v
    Set b = Nothing
End Sub
