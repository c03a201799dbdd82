/* Parts of the command set of AMD (CFI 0002) whose sectors are of one size: S29GL, and AM29LV and MX29 of that kind. Those
   with boot sectors, as most AM29LV have, are refused as UNEVEN. */
#ifndef ENVY_CFI_AMD_H
#define ENVY_CFI_AMD_H
#include "cfi.h"

/* Asks the part at `base` what it is. `base`, `bus_bytes`, `chip_bytes`, `microseconds` and `reset` are filled in
   already. DONE, ABSENT, UNEVEN, NO_RESET. */
int cfi_amd_open(cfi_part *part);
/* The callbacks over it. */
envy_part cfi_amd(cfi_part *part);
#endif
