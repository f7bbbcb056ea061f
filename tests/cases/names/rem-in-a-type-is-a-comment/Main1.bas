Type Job
    Rem As Long
    Name As String
End Type
