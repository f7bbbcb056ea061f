
Sub Go()
Do
