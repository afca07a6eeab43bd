int extern y, *z = 0;
