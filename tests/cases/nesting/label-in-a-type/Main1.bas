Type t
    x: a As Long
End Type
