int b = N;
