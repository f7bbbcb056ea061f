' Orders of one day.
Sub Main()
    Dim pieces As Integer, price As Currency
    pieces = 3
    price = 10.25@
    Debug.Print "total"; price * pieces
End Sub

' Counts in halves.
Sub Count()
    Dim i As Integer
    Debug.Print "start"
    For i = 1 To 3
        Debug.Print i / 2
    Next
End Sub
