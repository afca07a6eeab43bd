int z = 1 + 2;
