/* Parts of the command set of Intel (CFI 0001 and 0003) whose blocks are of one size: J3, and P30 and P33 in their
   versions without parameter blocks. Those with parameter (boot) blocks are refused as UNEVEN. */
#ifndef ENVY_CFI_INTEL_H
#define ENVY_CFI_INTEL_H
#include "cfi.h"

/* Asks the part at `base` what it is, and unlocks its blocks, which are locked after each start. `base`, `bus_bytes`,
   `chip_bytes`, `microseconds` and `reset` are filled in already. DONE, ABSENT, UNEVEN, LOCKED, NO_RESET. */
int cfi_intel_open(cfi_part *part);
/* The callbacks over it. */
envy_part cfi_intel(cfi_part *part);
#endif
