Private WithEvents As C
