Type t
    a
End Type
