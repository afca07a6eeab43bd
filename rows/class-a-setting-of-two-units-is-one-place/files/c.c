int c = N;
