Sub Work()
    m = 1
    m = total
    m = Now
    Beep
    Debug.Print m; Rows(1)
    Debug.Print m; vbCrLf
End Sub
