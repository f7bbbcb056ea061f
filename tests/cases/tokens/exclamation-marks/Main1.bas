Sub Main()
    a = b!c
    a = b!c.d!e
    a! = 1
    a = b! + 1
End Sub
