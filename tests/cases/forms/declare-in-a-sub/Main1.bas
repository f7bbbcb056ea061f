Sub Main()
    Declare Sub Sleep Lib "kernel32" ()
End Sub
