int z\
;
