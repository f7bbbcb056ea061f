Type Job
    End As Long
    Type As Integer
    Date As String * 20
    Next(1 To 3) As Long
    Dim$ As String
    Sub As Job
End Type

Sub Main()
    Dim j As Job
    j.End = 1
    j.Next(2) = j.Type
    With j
        .Date = "today"
        .Sub.End = .End
    End With
End Sub
