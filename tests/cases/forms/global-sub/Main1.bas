Global Sub a()
