int wk(const char *s);
#define TEXT(x) #x
#define ON(x) _Pragma(x)
const char *a = "weak wk", *b = TEXT(_Pragma("weak wk"));
_Pragma("weak\nwk") ON("weak wk")
int use(void) { return wk("_Pragma(wk)") + wk ("wk"); }
#if 0
_Pragma "wk" _Pragma("weak" "wk") _Pragma(("wk")) _Pragma("wk", 1) _Pragma['wk'] Pragma("wk") _Pragma(u8 "wk") _Pragma('wk')
#endif
