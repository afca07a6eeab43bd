# made by scripts/import out of a recorded build
readonly /
readonly ../
project bzip2
define _FILE_OFFSET_BITS 64
file bzip2/blocksort.c
file bzip2/huffman.c
file bzip2/crctable.c
file bzip2/randtable.c
file bzip2/compress.c
file bzip2/decompress.c
file bzip2/bzlib.c
file bzip2/bzip2.c
project bzip2recover
define _FILE_OFFSET_BITS 64
file bzip2/bzip2recover.c
# import: 9 units of 9 files
