Rem note
Sub Main()
Rem in
End Sub
