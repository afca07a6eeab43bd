#include "h.h"
struct s { char c; int i; };
