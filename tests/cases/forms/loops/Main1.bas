Sub Main()
    Do
    Loop
    Do While a
    Loop
    Do Until a
    Loop
    Do
    Loop While a
    Do
    Loop Until a
    Do While a
    Loop Until b
    While a
    Wend
End Sub
