Sub Main()
    Debug.Print 1@
    Debug.Print 922337203685477@
    Debug.Print 1.2345@
    Debug.Print 922337203685477.5807@
End Sub
