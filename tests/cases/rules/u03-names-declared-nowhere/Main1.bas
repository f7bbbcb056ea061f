Option Explicit
Public total As Long

Sub Main()
    Dim n As Long
    m = 1
    n = Replace("a", "b", "c")
    GoTo Away
    Dim p As Point
    n = total
    n = Len("abc")
End Sub
