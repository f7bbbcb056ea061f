Sub Main()
    For i = 1 To 3
    Next
    For i = 3 To 1 Step -1
    Next i
    For a.i = 1 To n(1)
    Next k
    For i% = 1 To 3: For j = i To 3
        a
    Next j, i
    For Each a In b.c
    Next a
End Sub
