extern int total;
