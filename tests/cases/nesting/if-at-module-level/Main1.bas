If a Then b
