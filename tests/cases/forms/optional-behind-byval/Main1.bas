Sub a(ByVal Optional b)
