int f(int a, int b[sizeof a]);
