Type Job
    End As Long
    End Sub
End Type
