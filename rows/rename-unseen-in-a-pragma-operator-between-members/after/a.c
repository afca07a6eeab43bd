_Pragma("omp threadprivate(n)")
int f(int m) {
  _Pragma(L"omp n" ) _Pragma(u8"omp L n L") /* n */ _Pragma(  U"n") _Pragma(u"n\
n n")
  return m;
}
_Pragma("omp n")
