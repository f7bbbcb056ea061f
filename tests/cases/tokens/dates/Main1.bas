Sub Main()
    a = #1/2/2000#
    a = #10:30:00 PM#
    a = # 2000-01-02 #
    a = #am 1/2#
    a = ##
End Sub
