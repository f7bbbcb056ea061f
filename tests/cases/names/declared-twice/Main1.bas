Sub InOneLine()
    Dim a As Long, A As Long
    a = 1
End Sub

Sub InTwoLines()
    Dim a As Long
    Dim A As Long
    a = 1
End Sub

Sub Again()
End Sub

Sub again()
End Sub
