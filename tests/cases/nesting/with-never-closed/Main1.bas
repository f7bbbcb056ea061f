Sub Main()
    Select Case a
        Case 1
            With b
                .c
