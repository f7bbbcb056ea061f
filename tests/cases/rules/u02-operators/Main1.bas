Sub Main()
    Dim n As Long, s As String, t As Boolean
    Dim o As Object
    n = n / 2
    n = n ^ 2
    t = s Like "a*"
    t = TypeOf o Is Object
    Take AddressOf Main
    n = n \ 2
    n = n Mod 2
    t = s = "a*"
    t = o Is Nothing
    Take n
End Sub

Sub Take(ByVal n As Long)
End Sub
