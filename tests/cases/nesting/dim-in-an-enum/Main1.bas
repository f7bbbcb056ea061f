Enum e
    Dim a
End Enum
