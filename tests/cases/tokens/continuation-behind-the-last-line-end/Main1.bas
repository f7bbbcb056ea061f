Sub Main()
x = 1 + _
