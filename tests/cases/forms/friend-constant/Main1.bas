Friend Const a = 1
