Const Currency = 1
