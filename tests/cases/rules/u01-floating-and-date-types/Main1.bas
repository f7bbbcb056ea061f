Private price As Double

Sub Main()
    Dim n As Long, c As Currency
    Dim due As Date, m As Long
    n = 1.5
    n = 12345678901
    c = c + 0.5
    n = 2147483647
    c = 1.5
    c = -2147483648
    c = c + 0.5@
    m = 1
    due = n
    price = price + n
End Sub
