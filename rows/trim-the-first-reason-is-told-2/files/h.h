#pragma p
int shared, more;
