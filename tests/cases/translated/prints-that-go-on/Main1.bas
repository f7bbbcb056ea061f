Sub Main()
    Dim s As String
    Debug.Print s;
    Debug.Print s; s;
    Debug.Print ;
    Debug.Print s;: Debug.Print
End Sub
