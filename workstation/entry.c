/* The functions of entry.h. */
#include "entry.h"
#include <string.h>

size_t entry_bytes(uint64_t steps)
{
    return ENTRY_HEAD + STEP * (size_t)steps + DIGEST_MOST;
}

size_t entry_to_bytes(const struct entry *entry, uint8_t *bytes)
{
    uint8_t *at = bytes + ENTRY_HEAD;

    memset(bytes, 0, entry_bytes(entry->steps.n));
    memcpy(bytes, entry->who, WHO);
    put_number(bytes + 24, 8, (uint64_t)entry->when);
    put_number(bytes + 32, 4, entry->steps.n);
    memcpy(bytes + 40, entry->before, DIGEST_MOST);
    for (size_t i = 0; i < entry->steps.n; i++, at += STEP) {
        at[0] = entry->steps.step[i].kind;
        put_number(at + 4, 4, entry->steps.step[i].place);
        memcpy(at + 8, entry->steps.step[i].record, RECORD);
    }
    memcpy(at, entry->after, DIGEST_MOST);
    return entry_bytes(entry->steps.n);
}

void entry_head_from_bytes(struct entry *entry, const uint8_t *bytes)
{
    memcpy(entry->who, bytes, WHO);
    entry->when = (int64_t)get_number(bytes + 24, 8);
    entry->steps.n = get_number(bytes + 32, 4);
    memcpy(entry->before, bytes + 40, DIGEST_MOST);
}

void steps_from_bytes(struct steps *steps, const uint8_t *bytes)
{
    for (size_t i = 0; i < steps->n; i++, bytes += STEP) {
        steps->step[i].kind = bytes[0];
        steps->step[i].place = get_number(bytes + 4, 4);
        memcpy(steps->step[i].record, bytes + 8, RECORD);
    }
}

void entry_rest_from_bytes(struct entry *entry, const uint8_t *bytes)
{
    steps_from_bytes(&entry->steps, bytes);
    memcpy(entry->after, bytes + STEP * entry->steps.n, DIGEST_MOST);
}
