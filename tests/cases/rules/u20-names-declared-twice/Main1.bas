Sub Main()
    Dim n As Long, N As Integer
    Dim other As Long
    System = 1
    Debug.Print total
again:
AGAIN:
End Sub

Sub Work()
    Dim n As Long, Main As Long, total As Long
    n = total
n:
    n = Other.total
End Sub

Sub Work()
End Sub
