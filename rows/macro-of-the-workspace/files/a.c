int x = SUB(1, 2);
