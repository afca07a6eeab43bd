/* Stands in for <tgmath.h>, which libraries write in GNU C. A call of `sqrt` is one of <math.h>'s function of that name. */
#ifndef CSCOUT_TGMATH_H
#define CSCOUT_TGMATH_H

#include <math.h>
#include <complex.h>

#endif
