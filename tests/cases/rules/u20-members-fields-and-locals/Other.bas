Public UpgradeSupport As Long
Public b As Long
