Friend a As Long
