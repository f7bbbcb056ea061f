Sub Main()
    Call 1
End Sub
