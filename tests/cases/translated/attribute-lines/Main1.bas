Attribute VB_Name = "Main1"
Sub Main()
    Attribute Main.VB_Description = "Does nothing"
End Sub
