Enum Days
    Today
    Date
End Enum
