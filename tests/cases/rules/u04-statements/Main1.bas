Private Declare Sub Sleep Lib "kernel32" (ByVal ms As Long)
Private Type Point
    X As Long
End Type

Sub Main()
    Dim a(3) As Point, p As Point, v As Variant
    With a(1)
    End With
    With p
    End With
    For Each v In v
    Next
    Open "f" For Input As #1
    Stop
    Debug.Print 1, 2
    Debug.Print 1; 2
    Open = 5
    v = Open + 1
End Sub
