Sub a(b(1))
