Sub Main()
    Dim n As Long
    Dim v As Variant, o As Object, a(3) As Long
    v = Null
    n = Null
    Set v = o
    Set v = Nothing
    v = a
    v = Empty
    v = 5
    v = a(1)
    n = v
    Set o = Nothing
    v = Nothing
End Sub
