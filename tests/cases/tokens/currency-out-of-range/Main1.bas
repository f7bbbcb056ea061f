Sub Main()
    a = 922337203685477.5808@
End Sub
