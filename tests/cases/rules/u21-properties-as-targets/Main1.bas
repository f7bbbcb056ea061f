Private total As Long
Property Get Sum() As Long
    Sum = total
End Property
Property Let Mark(ByVal v As Long)
    total = v
End Property
Property Get At(ByVal i As Long) As Long
End Property
Property Let At(ByVal i As Long, ByVal v As Long)
End Property
Sub Main()
    Dim n As Long, s As String
    Dim b As Box
    n = Sum
    Sum = 5
    Mark = 5
    n = Mark
    Sum
    n = At(1)
    At(1) = 2
    n = At
    At = 2
    n = At(1, 2)
    n = Sum()
    n = Sum(1)
    Mark = s
    At(n + 1) = n \ 2
    At(n) = n \ 2
    Set b = New Box
    b.Name = "x"
    s = b.Name
    s = b.Title
    b.Title = "y"
    Set b.Owner = b.Owner!x
    Set b.Owner = b
    Set b.Owner = 5
    b.Hidden = 1
    b.Go
    b.Go 1
    n = b.Go
End Sub
