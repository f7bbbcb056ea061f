Property Let n(v) As Long
