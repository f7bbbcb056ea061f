Type t
    a As Long
Sub Main()
