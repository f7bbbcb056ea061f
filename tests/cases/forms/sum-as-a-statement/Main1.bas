Sub Main()
    Foo(1).x + 1
End Sub
