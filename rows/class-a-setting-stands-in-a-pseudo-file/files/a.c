int x = N;
