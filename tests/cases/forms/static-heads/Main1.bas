Static Sub A(x As Integer)
    x = x + 1
End Sub

Private Static Function B(ByVal n As Long) As Long
    B = n
End Function

Static Property Get C() As Long
End Property

Sub D() Static
    Dim n As Long
    n = 1
    Debug.Print n
End Sub

Function E() As Long Static
End Function
