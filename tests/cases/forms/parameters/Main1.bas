Sub A(b, ByVal c As Long, ByRef d As String)
End Sub

Sub B(c(), d() As Long, e$)
End Sub

Private Sub C(Optional a, Optional ByVal b As Long = 1, Optional c As String = "x")
End Sub

Friend Sub D(ParamArray a())
End Sub

Function E(a As Lib.C) As Lib.C
End Function

Function F() As Long()
End Function

Function G$(a As String * 5)
End Function
