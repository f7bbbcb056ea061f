Sub Main()
    Dim [Loop] As Long
    [Loop] = [Loop] + 1
End Sub
