# made by scripts/import out of a recorded build
readonly /
readonly ../
project default
file tinycdb/cdb.c
file tinycdb/cdb_init.c
file tinycdb/cdb_find.c
file tinycdb/cdb_findnext.c
file tinycdb/cdb_seq.c
file tinycdb/cdb_seek.c
file tinycdb/cdb_unpack.c
file tinycdb/cdb_make_add.c
file tinycdb/cdb_make_put.c
file tinycdb/cdb_make.c
file tinycdb/cdb_hash.c
define CDB_PIC 1
file tinycdb/cdb_init.c
file tinycdb/cdb_find.c
file tinycdb/cdb_findnext.c
file tinycdb/cdb_seq.c
file tinycdb/cdb_seek.c
file tinycdb/cdb_unpack.c
file tinycdb/cdb_make_add.c
file tinycdb/cdb_make_put.c
file tinycdb/cdb_make.c
file tinycdb/cdb_hash.c
# import: 21 units of 11 files
