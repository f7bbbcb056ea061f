Sub Main()
    Do
    Loop
    a
