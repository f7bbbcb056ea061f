Option Explicit
Enum Kinds
    Small
    Large = 5
End Enum
Sub Main()
    Dim n As Long
    n = Small
    n = Kinds.Large
    n = Main1.Small
    n = Main1.Kinds.Small
    n = Kinds
    Kinds = 5
    n = Kinds.Nowhere
    n = Main1
    n = Main1.Nowhere
    n = Main
    n = Main1.Main
    Main
    Main1.Main
    Call Main1.Main
End Sub
