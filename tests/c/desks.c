/* Two desks that change different wells of one sheet: every two places of small sheets, and some of large ones, saved
   in both orders. With the claim that both opened the second is stale; with the digest that the first handed out both
   orders leave the same sheet, marks, digest and rounds. sheet_call judges each call. */
#include "test.h"

static struct sheet opened, s, one_first;

/* A desk's save at this place, with the claim that the sheet has. */
static uint64_t save(uint64_t want, size_t place)
{
    s.place = place;
    for (size_t i = 0; i < RECORD; i++)
        s.record[i] = (uint8_t)(opened.sheet[RECORD * place + i] ^ (place + i + 1));
    return sheet_call(want, CHANGE, &s).rounds;
}

static uint64_t in_turn(size_t first, size_t second)
{
    uint8_t handed[sizeof s.claim];

    s = opened;
    uint64_t rounds = save(LUFFA_DONE, first);
    memcpy(handed, s.claim, sizeof handed);
    memcpy(s.claim, opened.claim, sizeof s.claim);
    save(LUFFA_STALE, second);
    memcpy(s.claim, handed, sizeof s.claim);
    return rounds + save(LUFFA_DONE, second);
}

static void either_order(size_t one, size_t other)
{
    uint64_t rounds = in_turn(one, other);

    one_first = s;
    check(in_turn(other, one) == rounds && memcmp(s.sheet, one_first.sheet, sizeof s.sheet) == 0 &&
              memcmp(s.marks, one_first.marks, sizeof s.marks) == 0 &&
              memcmp(s.claim, one_first.claim, digest_bytes[s.code]) == 0,
          "places %zu and %zu of %zu at code %zu: the order shows", one, other, s.n, s.code);
}

int main(void)
{
    for (size_t code = LUFFA_224; code <= LUFFA_512; code++) {
        for (size_t n = 2; n <= 9; n++) {
            built_sheet(&opened, code, n, n % 3);
            for (size_t one = 1; one < n; one++)
                for (size_t other = 0; other < one; other++)
                    either_order(one, other);
        }
        built_sheet(&opened, code, MOST - code, 0);
        either_order(0, MOST - code - 1);
        either_order(MOST - 8, MOST - 9);
    }
    return 0;
}
