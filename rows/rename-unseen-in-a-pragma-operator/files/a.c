int wk(int n);
_Pragma("weak wk")
_Pragma (
    "redefine_extname wk wk2"
)
_Pragma("GCC poison awk wk_ 1wk") int use(void) { _Pragma("wk") return wk(1); }
#if 0
_Pragma("weak wk=use")
#endif
