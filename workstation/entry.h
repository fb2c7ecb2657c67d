/*
 * What is kept of a save, and the bytes that stand for it, every number high byte first:
 *   bytes 0 to 23      who saved, then zeros
 *   bytes 24 to 31     when, in seconds since 1970: by the saver's clock, or in a database by the server's
 *   bytes 32 to 35     the number of its steps
 *   bytes 36 to 39     the mark of acceptance, which log.h explains; 0 until it is set
 *   bytes 40 to 103    the digest before, then zeros
 *   then, a step       byte 0: 1 changed, 2 appended, 3 dropped, 4 closed up; bytes 1 to 3 zero; bytes 4 to 7
 *                      the place; bytes 8 to 47 the record (steps.h)
 *   the last 64        the digest after, then zeros
 */
#ifndef ENTRY_H
#define ENTRY_H

#include "steps.h"

enum { WHO = 24, ENTRY_HEAD = 104, STEP = 48, ENTRY_MOST = ENTRY_HEAD + STEP * STEPS_MOST + DIGEST_MOST };

struct entry {
    uint8_t who[WHO], before[DIGEST_MOST], after[DIGEST_MOST];
    int64_t when;
    struct steps steps;
};

/* The bytes of an entry with so many steps. */
size_t entry_bytes(uint64_t steps);

/* Writes an entry, at most ENTRY_MOST bytes, and gives their number. */
size_t entry_to_bytes(const struct entry *entry, uint8_t *bytes);

/* Reads the head, which says how many steps there are, and then what follows it; steps_from_bytes reads steps alone. */
void entry_head_from_bytes(struct entry *entry, const uint8_t *bytes);
void entry_rest_from_bytes(struct entry *entry, const uint8_t *bytes);
void steps_from_bytes(struct steps *steps, const uint8_t *bytes);

#endif
