Sub Main()
    Do
        If a Then
        Else
            b
