int k;
#error no
