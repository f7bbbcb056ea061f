Public Equals As Long
Private Type Part
    ToString As String
    Text As String
End Type
Enum Finalize
    Small
End Enum

Sub GetType()
End Sub

Sub Types()
End Sub

Sub Main()
    Dim ToString As String
    ToString = "a"
    Dim p As Part
    p.ToString = "b"
    GetType
End Sub
