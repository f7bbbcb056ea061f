Sub Main()
    For Each a(1) In b
    Next
End Sub
