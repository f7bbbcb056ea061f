Private Declare Function GetTickCount Lib "kernel32" () As Long
Declare Sub Sleep Lib "kernel32" Alias "Sleep" (ByVal ms As Long)
Public Event Done(ByVal count As Long)
Event Begun()
Implements Shape
Private WithEvents watched As C
Public WithEvents seen As Lib.C, other(2) As C
