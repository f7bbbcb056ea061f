Enum e As Long
