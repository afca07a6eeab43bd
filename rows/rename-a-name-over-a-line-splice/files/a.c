int lo\
ng_name;
int k = __LINE__;
