int b = a;
