Sub Show(ByVal n As Long, Optional ByVal m As Long = 5)
End Sub

Sub Work(ByVal n As Long, Optional ByVal v As Variant)
End Sub

Sub All(ParamArray x())
End Sub

Sub Main()
    Dim n As Long
    Show n:=1
    Show ByVal 1
    Show 1, 2, 3
    Show
    Work 1
    n = MsgBox("a")
    Show 1
    Show 1, 2
    Work 1, 2
    MsgBox "a"
End Sub
