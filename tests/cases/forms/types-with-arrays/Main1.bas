Private Type Row
    Cells(1 To 3, 2) As Long
    Rest() As String
    Mark As String * 3
    Tail As Lib.Row
End Type

Public Enum Colours
    Red
    Green = Red + 2
    [Next]
End Enum
