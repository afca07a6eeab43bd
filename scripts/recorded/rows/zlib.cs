# made by scripts/import out of a recorded build
readonly /
readonly ../
project default
ipath zlib
define NDEBUG 1
define HAVE_STDARG_H 1
define HAVE_UNISTD_H 1
define _LARGEFILE64_SOURCE 1
define z_EXPORTS 1
file zlib/adler32.c
file zlib/crc32.c
file zlib/deflate.c
file zlib/infback.c
file zlib/inffast.c
file zlib/inflate.c
file zlib/inftrees.c
file zlib/trees.c
file zlib/zutil.c
file zlib/compress.c
file zlib/uncompr.c
file zlib/gzclose.c
file zlib/gzlib.c
file zlib/gzread.c
file zlib/gzwrite.c
undefine HAVE_STDARG_H
undefine HAVE_UNISTD_H
undefine _LARGEFILE64_SOURCE
undefine z_EXPORTS
file zlib/test/example.c
# import: 16 units of 16 files
