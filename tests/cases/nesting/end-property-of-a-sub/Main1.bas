Sub Main()
End Property
