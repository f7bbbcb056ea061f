Sub Main()
    a = b &c
    a = b & c
    a = b& & c
    a = "x"&c &"y"
End Sub
