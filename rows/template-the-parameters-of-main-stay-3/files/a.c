int main_(int a, char *b);
