Option Explicit
Sub Main()
    Dim n As Long
    n = Other
    n = Other.Colours.Red
    n = Other.Red
    n = Red
    n = Colours.Red
    n = Hidden
    n = Other.Hidden
    n = Other.Red.X
    Dim a(m) As Long
    Dim b(n) As Long
    n! = 5
    Red = 5
    Other.Store = 5
    Other.K = 5
    Other.Nowhere
    Other.Work
    Other
    Dim c As Other
    Dim d As Other.Colours
    Dim e As Other.Part
    Dim f As Other.Place
    f.X = n
    f.Y = n
    Set d = New Place
End Sub
