Sub ToString()
End Sub

Sub [New]()
End Sub

Sub Main1()
End Sub

Sub System()
End Sub
