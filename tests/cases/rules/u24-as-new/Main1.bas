Private list(3) As New Box
Private one As New Box

Sub Fill(b As Box)
End Sub

Sub Take(ByVal b As Box)
End Sub

Sub Main()
    Dim mine As New Box, plain As Box
    Fill one
    Fill mine
    With mine
        .Size = 5
    End With
    Take mine
    mine.Size = 6
    Fill plain
    With plain
    End With
End Sub
