Public
