Declare Sub Date Lib "clock.dll" ()
Event Single()

Sub Main()
Date: 
    For Each Long In a
    Next
    Date = String(3, "x")
    GoTo Date
End Sub
