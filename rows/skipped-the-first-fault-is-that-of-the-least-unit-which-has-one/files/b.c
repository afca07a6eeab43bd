int b;
#error stop
