int f(int _Accum) { return _Accum; }
