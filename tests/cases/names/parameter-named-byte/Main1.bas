Sub Send(Byte As Long)
End Sub
