#define NAME <h.h>
#include "h.h"
- 1
#include <h.h>
- 2
#include_next <h.h>
- 3
#include "d2/h.h"
- 4
#include_next NAME
