int f(int __func__, int b);
