Private Type Part
    N As Long
    A(3) As Long
End Type
Private n As Long
Private f(3) As Long
Function Take() As Long
    n = n + 1
    Take = n
End Function
Function Make() As Box
    Set Make = New Box
End Function
Function Peek() As Long
    Peek = n
End Function
Sub Main()
    Dim i As Long
    Dim b As Box, c As New Box, d(3) As Box, w(3) As Noisy, p As Part, l() As Long, v As Variant, q As New Noisy
    p.N = Take()
    i = Take()
    p.A(1) = Take()
    l(1) = Take()
    b.N = Take()
    b.N = 5
    Make.N = i
    Make.N = 5
    f(i) = Take()
    f(1) = Take()
    f(i) = Peek()
    f(Peek()) = i
    f(Take()) = i
    f(Take()) = 5
    Set d(i) = Make()
    Set d(i) = b
    Set d(i + 1) = d(i)
    Set d(1) = New Box
    Set w(i) = New Noisy
    c.N = Take()
    c.N = i
    q.N = i
    q.N = 5
    f(q.N) = i
    f(i) = q.N
    f(i) = c.N
    v = Take()
    b.T = InputBox("a")
End Sub
