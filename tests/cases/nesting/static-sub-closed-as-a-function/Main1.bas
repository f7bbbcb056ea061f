Static Sub Main()
End Function
