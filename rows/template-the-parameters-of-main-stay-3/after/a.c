int main_(char *b, int a);
