MANY(extern int NAME;)
