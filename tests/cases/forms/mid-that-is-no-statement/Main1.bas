Sub Main()
    Mid = a
    b = Mid(a, 1)
    Mid a, 1
End Sub
