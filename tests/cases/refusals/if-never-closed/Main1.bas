Sub Main()
If a Then
