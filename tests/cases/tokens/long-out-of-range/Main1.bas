Sub Main()
    a = 2147483648&
End Sub
