/* ordered.c over a kept file: OPERATIONS is a multiple of 16. */
#define OF_KEPT
#include "ordered.c"
