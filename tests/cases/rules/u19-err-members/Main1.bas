Sub Main()
    Dim n As Long, s As String
    s = Err.Description
    n = Err
    Err.Raise 5, "a"
    Err.Number = 5
    n = Err.Number
    Err.Raise n + 1
    Err.Clear
    Err.Raise Number:=5
    Error 5
End Sub
