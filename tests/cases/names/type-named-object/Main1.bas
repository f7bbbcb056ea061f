Type Object
    a As Long
End Type
