Public Enum Colours
    Red
End Enum
Private Hidden As Long
Public Store As Long
Public Const K = 5
Private Type Part
    X As Long
End Type
Public Type Place
    X As Long
End Type
Sub Work()
End Sub
