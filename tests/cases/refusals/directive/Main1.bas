#If Win32 Then
