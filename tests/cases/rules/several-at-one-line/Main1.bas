Option Explicit

Sub Main()
    Dim n As Long
    n = m / 2.5
    n = Err.Description + MsgBox("a") + m
    If n = 1 Then Stop Else n = n / 3
    n = 1: GoTo Away
    Dim v As Variant: v = Null
    n = n _
        / 2
    m = m + m: m = 2
End Sub
