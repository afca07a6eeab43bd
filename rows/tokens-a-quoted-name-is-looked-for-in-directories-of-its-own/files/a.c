#include "x.h"
#include <x.h>
