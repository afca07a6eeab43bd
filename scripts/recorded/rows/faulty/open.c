int opened(int a) { return TWICE(a;
