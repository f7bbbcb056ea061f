Attribute VB_Name = "Module3"
Public total As Long
