Sub Main()
    Dim n As Long, s As String
    Dim b As Box, v As Variant, a(3) As Long
    Err.Raise "5"
    Call Err.Raise(5)
    Call Err.Clear
    Err.Number
    With Err
    End With
    Set v = Err
    Err.Raise
    Err.Raise v
    Err.Raise 3000000000@
    n = Err.LastDllError
    Err.Clear 1
    Err.Raise Number:=1
    Debug.Print b
    Debug.Print a
    Debug.Print Nothing
    Debug.Print Empty
    Debug.Print Null
    Debug.Print Me
    Debug.Print New Box
    Debug.Print Tab
    Debug.Print v.Tab
    Debug.Print Err.Number
    Debug.Print v; n
    Debug.Print a(1)
    Debug.Print n,
    Debug.Print New Nowhere
    Debug.Print MsgBox(s)
    n = MsgBox(s, 4) + MsgBox(s)
End Sub
