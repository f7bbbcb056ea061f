Sub Main()
    b: a b c = Next: Loop
End Sub
