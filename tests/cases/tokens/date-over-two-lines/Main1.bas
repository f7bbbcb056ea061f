Sub Main()
    a = #1/2/ _
2000#
End Sub
