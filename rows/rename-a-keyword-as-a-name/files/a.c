int x;
int if;
