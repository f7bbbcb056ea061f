Sub Main()
    Dim t As Boolean, i As Integer
    t = True
    t = i
End Sub
