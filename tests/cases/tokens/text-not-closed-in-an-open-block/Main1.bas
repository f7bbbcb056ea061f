Sub Main()
    Do
        a = "x
