Sub AsANamespace()
    Dim Microsoft As Long
    Microsoft = 1
End Sub

Sub AsTheModule()
    Dim main1 As Long
    main1 = 1
End Sub
