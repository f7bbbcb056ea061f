Dim a
Type t
    b As Long
