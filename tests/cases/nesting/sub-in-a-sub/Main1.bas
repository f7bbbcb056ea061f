Sub Main()
Sub Other()
