/* A bank's load: transfers that are drawn from a number, each one transaction with four background steps behind it. */
#ifndef PEER_TPCA_H
#define PEER_TPCA_H

#include "memory.h"

struct area {
    uint32_t branches, accounts, transfers; /* accounts of each branch */
};

struct sums {
    int64_t branches, tellers, accounts, history, deltas;
    struct counts counts; /* as they were before the sums were added up */
};

/* Whether the records of an area fit into so many pages. */
bool area_fits(const struct area *area, uint32_t pages);

/* Does the transfers that a number draws, and adds up what they left. */
struct sums tpca_drive(struct memory *memory, const struct area *area, uint64_t start);

#endif
