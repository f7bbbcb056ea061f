Attribute VB_Name = "Main1"
' töp

Sub Main() ' head
'one
Dim n% ' declared _
and more
n = 1: n = 2 ' two
Dim m%
End Sub ' end
'last