int x;
/* open
