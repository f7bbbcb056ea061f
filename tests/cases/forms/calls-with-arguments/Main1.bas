Sub Main()
    a 1, , b
    a b:=1, c:=2
    a ByVal b, #1
    a (b), (c)
    a (b) + 1, c
    a -1
    a.b(1).c "x"
    a!b 2
    Call a
    Call a(1, b:=2)
    Call a.b(1).c
    a b(), c(,)
End Sub
