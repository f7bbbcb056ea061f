Private n As Long

Public Property Get Count() As Long
    Count = n
End Property

Public Property Let Count(ByVal value As Long)
    n = value
End Property

Friend Property Set Owner(value As C)
    Exit Property
End Property

Property Get All() As Long()
End Property
