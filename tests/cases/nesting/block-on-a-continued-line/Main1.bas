Sub Main()
    a _
: Do
