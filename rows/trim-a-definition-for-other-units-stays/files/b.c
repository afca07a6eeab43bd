extern int shared;
int *p = &shared;
