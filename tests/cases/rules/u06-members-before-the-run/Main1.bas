Sub Main()
    Dim n As Long
    Dim o As Object, v As Variant, b As Box, m As Money
    o.Show
    v.Show
    n = o!Size
    n = v(1)
    n = o
    n = b
    n = b.Nowhere
    n = b.Size
    n = m
    n = v
End Sub
