DefInt A-C
DefSng S
DefStr T
Sub Main()
    Dim n As Long
    a = 5
    b = 40000
    s = 5
    s = s + t
    t = n
    n = t
    a = t - 1
    For c = 1 To 3
    Next
    For d = 1 To 3
    Next
    e% = 5
    For e = 1 To 3
    Next
End Sub
Function Sum(x)
End Function
Sub Work(s1, n1)
End Sub
