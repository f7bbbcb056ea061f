DefInt ab
