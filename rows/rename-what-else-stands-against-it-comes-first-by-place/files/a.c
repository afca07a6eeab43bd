int x; int z;
