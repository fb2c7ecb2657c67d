/* A well, written into its bytes of a sheet, and its number. For the examples of what sheets mean. */
#ifndef WELLS_H
#define WELLS_H

#include <luffa.h>

/* Numbers stand high byte first. */
static inline void put(uint8_t *at, size_t bytes, uint32_t number)
{
    for (; bytes > 0; number >>= 8)
        at[--bytes] = (uint8_t)number;
}

/* A well without links, over bytes of 0. */
static inline void put_well(uint8_t *well, uint32_t number, uint8_t kind, uint32_t rate)
{
    put(well + LUFFA_WELL_NUMBER, 2, number);
    well[LUFFA_WELL_KIND] = kind;
    put(well + LUFFA_WELL_RATE, 4, rate);
}

/* One link more. */
static inline void add_link(uint8_t *well, uint32_t injector, uint32_t share)
{
    size_t k = well[LUFFA_WELL_LINK_COUNT]++;

    put(well + LUFFA_LINK_INJECTOR(k), 2, injector);
    put(well + LUFFA_LINK_SHARE(k), 2, share);
}

static inline unsigned number_of(const uint8_t *well)
{
    return 256u * well[LUFFA_WELL_NUMBER] + well[LUFFA_WELL_NUMBER + 1];
}

#endif
