# made by scripts/import out of a recorded build
readonly /
readonly ../
project default
qpath included/own
qpath included/inc
ipath included/late
include included/made/settings.h
file included/src/main.c
project default
qpath included/own
qpath included/inc
ipath included/late
include included/made/words.h
include included/made/settings.h
file included/src/table.c
# import: included/src/table.c: -imacros ../made/words.h is read whole: what it declares is seen too
# import: included/src/table.c:14: a rename does not reach what stands in assembler: low, high
# import: 2 units of 2 files
