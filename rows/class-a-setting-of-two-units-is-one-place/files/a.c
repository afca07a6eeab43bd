int a = N;
