Private list() As Long
Private words() As String

Sub Grow(n As Long)
    n = n + 1
    ReDim list(9)
End Sub

Sub Clear(s As String)
    s = ""
    ReDim list(9)
End Sub

Sub Bump(n As Long)
    n = n + 1
End Sub

Sub Main()
    Dim k As Long
    Dim own(3) As Long
    Grow list(1)
    Grow own(1)
    Grow k
    Grow (own(1))
    Clear words(1)
    Bump list(1)
End Sub
