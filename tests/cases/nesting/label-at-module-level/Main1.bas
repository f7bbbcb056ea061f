x:
