Public a As Long
Const A = 1
Sub a()
End Sub
Enum Kinds
    Red
    red
    Kinds
    Other
End Enum
Private Type Box
    X As Long
    x As Integer
    System As Long
    Other As Long
End Type
Property Get P() As Long
End Property
Property Let P(ByVal v As Long)
End Property
Sub P()
End Sub
Sub Work(a1 As Long, A1 As String)
    Dim Box As Long
    Const K = 1, k = 2
    Dim Microsoft As Long
End Sub
Sub Main()
End Sub
