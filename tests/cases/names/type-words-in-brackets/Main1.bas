Sub Main()
    Dim [Date] As Long, [String]&
    [Date] = [string]
End Sub
