Sub Main()
    Dim n As Long
    n = &HF
    n = &HFFFF
    n = &HFFFF&
    n = &HFFFFFFFF
    n = &H10000
End Sub
