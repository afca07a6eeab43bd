#ifndef H_H
#define H_H
extern int n;
#endif
