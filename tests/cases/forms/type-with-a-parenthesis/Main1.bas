Type t()
