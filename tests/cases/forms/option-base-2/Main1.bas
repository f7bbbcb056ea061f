Option Base 2
