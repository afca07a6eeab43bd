typedef int t;
struct s { int m; t n; };
enum e { E1, E2 = 4 };
