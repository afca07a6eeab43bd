int one
