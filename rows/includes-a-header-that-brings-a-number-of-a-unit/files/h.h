static int k = __COUNTER__;
