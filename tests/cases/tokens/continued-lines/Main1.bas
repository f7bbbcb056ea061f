Sub Main()
    Dim n As Long
    n = 1 + _
2
    n = _	 
	3 _

    n _
= 4
End Sub
