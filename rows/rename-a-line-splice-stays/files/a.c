int x\
;
