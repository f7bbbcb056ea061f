Sub Main()
Debug.