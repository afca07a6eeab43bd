#include "Z.h"
