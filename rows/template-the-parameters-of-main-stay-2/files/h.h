int main(int c, char **v);
