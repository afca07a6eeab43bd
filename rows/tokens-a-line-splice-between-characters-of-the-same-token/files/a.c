int v\
;
int k = __LINE__;
