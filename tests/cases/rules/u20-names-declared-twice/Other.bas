Attribute VB_Name = "OTHER"
Public total As Long
