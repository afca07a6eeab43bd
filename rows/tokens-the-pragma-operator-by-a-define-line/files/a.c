#define DO(x) _Pragma(#x) x
#define ID(x) x
#define PP _Pragma("a, b") end
#define UP _Pragma
DO(int y;) ID(_Pragma("x") int z;) ID(PP) UP("q") ID(ID(UP ("r") a))
int s = sizeof "_Pragma(\"x\")";
#ifdef _Pragma
yes
#endif
