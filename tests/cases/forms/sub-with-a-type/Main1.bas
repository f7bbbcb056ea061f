Sub a() As Long
