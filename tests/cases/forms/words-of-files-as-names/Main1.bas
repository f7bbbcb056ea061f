Sub Main()
    Name = "f"
    Line(1) = 2
    Open.Length = 3
    Seek (4)
    Error = Input(5, 1)
End Sub
