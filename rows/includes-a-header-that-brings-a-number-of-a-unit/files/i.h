static int i;
