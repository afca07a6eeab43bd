# made by scripts/import out of a recorded build
readonly /
readonly ../
project default
ipath jansson/build
ipath jansson
ipath jansson/src
define _FILE_OFFSET_BITS 64
define HAVE_CONFIG_H 1
file jansson/src/dump.c
file jansson/src/error.c
file jansson/src/hashtable.c
file jansson/src/hashtable_seed.c
file jansson/src/load.c
file jansson/src/memory.c
file jansson/src/pack_unpack.c
file jansson/src/strbuffer.c
file jansson/src/strconv.c
file jansson/src/utf.c
file jansson/src/value.c
file jansson/src/version.c
# import: 12 units of 12 files
