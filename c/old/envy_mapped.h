#include "envy_old.h"
