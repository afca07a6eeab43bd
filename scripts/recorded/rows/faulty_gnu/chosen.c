struct pair { int first; };
int chosen(struct pair *p) { return _Generic(p, default: p)->first; }
