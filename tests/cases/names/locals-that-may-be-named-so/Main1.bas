Sub AsAMemberOfAnyType()
    Dim ToString As Long
    ToString = 1
End Sub

Sub AsASub()
    Dim Other As Long
    Other = 1
End Sub

Sub Other()
End Sub

Sub AsALibraryCall()
    Dim Left As Long
    Left = 1
End Sub
