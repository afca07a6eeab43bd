#ifndef H
#define H
extern int y;
#endif
