Private WithEvents Object As C
