#ifdef Z
z

z
#endif
