Sub Main()
    a = b ^ -c
    a = -b ^ 2
    a = b * c / d \ e Mod f
    a = b Like "x*"
    a = b Is Nothing
    a = Not b Is c
    a = TypeOf b Is C
    a = TypeOf b.d Is Lib.C
    a = b Eqv c Imp d
    a = b > Not c
    a = Null & Empty
    Set a = New C
    b AddressOf Main
    a = f(AddressOf Main)
End Sub
