Sub Opt(Optional ByVal a As Long, Optional ByVal b As String = "x", Optional c As Long = 3)
End Sub
Sub Main()
    Dim n As Long, i As Integer
    Opt
    Opt , "y"
    Opt 1, , n
    Opt 1, "a", i
    Opt 1, "a", 3, 4
    Opt b:="q"
    Opt "1"
    Opt 3000000000@
    Opt 1.5
    Opt 1.5@
    Opt #1
    Call Opt(1)
    Call Opt
    n = Opt(1)
End Sub
