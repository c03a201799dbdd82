/* The places of handles. It is for the C beside the library, and isn't installed. */
#ifndef ENVY_PLACE_H
#define ENVY_PLACE_H

#include "envy.h"

/* Gives a handle a place that holds no memory, if it has none. ENVY_DONE or ENVY_NO_MEMORY. */
uint32_t envy_place_take(envy *m);

/* Takes the place of a handle, which holds no memory, for the next handle that asks. */
void envy_place_give(envy *m);

#endif
