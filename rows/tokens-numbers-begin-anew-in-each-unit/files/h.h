int h = __COUNTER__;
