Type t
    a As Long
End Enum
