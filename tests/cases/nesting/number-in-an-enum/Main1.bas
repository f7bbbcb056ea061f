Enum e
    10: b
End Enum
