sub main()
    Dim Try As Long, Total&
    try = 1
    TOTAL& = TRY
    total = total + [Total]
end sub

Private Sub Get()
End Sub
