# made by scripts/import out of a recorded build
readonly /
readonly ../
project lua
define LUA_COMPAT_5_3 1
define LUA_USE_LINUX 1
file lua/lapi.c
file lua/lauxlib.c
file lua/lbaselib.c
file lua/lcode.c
file lua/lcorolib.c
file lua/lctype.c
file lua/ldblib.c
file lua/ldebug.c
file lua/ldo.c
file lua/ldump.c
file lua/lfunc.c
file lua/lgc.c
file lua/linit.c
file lua/liolib.c
file lua/llex.c
file lua/lmathlib.c
file lua/lmem.c
file lua/loadlib.c
file lua/lobject.c
file lua/lopcodes.c
file lua/loslib.c
file lua/lparser.c
file lua/lstate.c
file lua/lstring.c
file lua/lstrlib.c
file lua/ltable.c
file lua/ltablib.c
file lua/ltm.c
file lua/lua.c
file lua/lundump.c
file lua/lutf8lib.c
file lua/lvm.c
file lua/lzio.c
project luac
define LUA_COMPAT_5_3 1
define LUA_USE_LINUX 1
file lua/luac.c
# import: 34 units of 34 files
