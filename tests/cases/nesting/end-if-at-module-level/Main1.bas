End If
