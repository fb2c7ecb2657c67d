/* The refusals of the sheet calls: each by itself in every way, and every set of them at once, of
   which the first in their order is given. What is refused changes nothing; sheet_call sees to that. The
   mender's are in mend.c. */
#include "test.h"

/* The sheet as built, and the one that is spoilt. A refused call leaves the sheet and the marks, so
   that only the rest is put right again. */
static struct sheet built, s;

static void put_right(void)
{
    memcpy(&s, &built, offsetof(struct sheet, sheet));
    memcpy(s.claim, built.claim, sizeof s.claim);
    memcpy(s.own, built.own, 4 * built.own_len);
}

static const size_t unknown[] = {0, 5, 256 + 2, ((size_t)1 << 32) + 4, (size_t)1 << 63, SIZE_MAX};

/* All of them in the order in which they are judged; only a batch has 14, only a close up 23, and only calls with own
   marks 15 and 16. */
static const uint64_t order[] = {LUFFA_WIDTH,  LUFFA_OUT,   LUFFA_SHEET,     LUFFA_MARKS, LUFFA_SET,
                                 LUFFA_PLACES, LUFFA_PLACE, LUFFA_FULL,      LUFFA_SIZE,  LUFFA_CLAIM,
                                 LUFFA_OWN,    LUFFA_STALE, LUFFA_STALE_TAIL};

/* Places after the last record, from n on; among them such as are before it once they are cut. */
static const size_t beyond[] = {
    0, 1, 3, ((size_t)1 << 32) - 1, SIZE_MAX / 40, SIZE_MAX / 40 + 1, (size_t)1 << 63, SIZE_MAX - MOST,
};

static const size_t no_record[] = {0, 1, 39, 41, 80};
static const size_t no_claim[] = {0, 1, 28, 32, 48, 64, 65};

/* Numbers of changes that no batch has, some of them few once they are cut to 8 bits. */
static const size_t crowds[] = {CHANGES + 1, CHANGES + 2, 128, 256, 256 + 3};

/* Places that don't rise, though some would once they are cut, taken as signed, or their difference is. */
static const size_t no_rise[][2] = {
    {0, 0},
    {1, 0},
    {SIZE_MAX, SIZE_MAX},
    {SIZE_MAX, 0},
    {(size_t)1 << 63, 1},
    {(size_t)1 << 32, 1},
    {((size_t)1 << 32) + 1, 2},
};

/* In how many ways the built sheet can be refused this. */
static size_t ways(enum call call, uint64_t number)
{
    switch (number) {
    case LUFFA_WIDTH:
        return COUNT_OF(unknown);
    case LUFFA_OUT:
    case LUFFA_STALE_TAIL:
        return digest_bytes[built.code];
    case LUFFA_STALE:
        /* With own marks, both sheets need one after mark 0. */
        return brings_own(call) && built.n < 4 ? 0 : digest_bytes[built.code];
    case LUFFA_SHEET:
        return COUNT_OF(too_many) + (built.n > 0 ? 3 : 1);
    case LUFFA_MARKS:
        return 3;
    case LUFFA_SET:
        return COUNT_OF(crowds) + COUNT_OF(no_rise) + 2;
    case LUFFA_PLACES:
        /* No list is too short for no records. */
        return built.n < 3 ? built.n : 3;
    case LUFFA_PLACE:
        return plain(call) == DROP ? 0 : COUNT_OF(beyond);
    case LUFFA_FULL:
        return built.n % 4 == 3 ? 4 : 2;
    case LUFFA_SIZE:
        return COUNT_OF(no_record);
    case LUFFA_OWN:
        return COUNT_OF(too_many) + 4 + state_bytes[built.code] / 4;
    default:
        return COUNT_OF(no_claim);
    }
}

/* A batch at one place more, with a record for it; where the records were too few or too many, they stay so. */
static void add_place(size_t place)
{
    s.places[s.places_len++] = place;
    s.records_len += RECORD;
}

static void spoil_set(size_t way)
{
    if (way < COUNT_OF(crowds)) {
        while (s.places_len < crowds[way])
            add_place(s.places_len > 0 ? s.places[s.places_len - 1] + 1 : 0);
        return;
    }
    while (s.places_len < 2)
        add_place(0);
    way -= COUNT_OF(crowds);
    if (way < COUNT_OF(no_rise))
        memcpy(s.places, no_rise[way], sizeof no_rise[way]);
    else
        /* After a place that may be too high itself. */
        add_place(way % 2 ? s.places[s.places_len - 1] : 0);
}

/* A count of own records that no sheet has, too few words for the marks, or another word in mark 0. */
static void spoil_own(size_t way)
{
    if (way < COUNT_OF(too_many)) {
        s.own_n = too_many[way];
        return;
    }
    way -= COUNT_OF(too_many);
    switch (way) {
    case 0:
        /* Too many, though there is room for them. */
        s.own_n = MOST + 1;
        s.own_len = COUNT_OF(s.own);
        break;
    case 1:
        s.own_len--;
        break;
    case 2:
        s.own_len -= MARK;
        break;
    case 3:
        s.own_len = 0;
        break;
    default:
        s.own[way - 4] ^= 1u << way % 32;
    }
}

static void spoil(enum call call, uint64_t number, size_t way)
{
    size_t n = built.n, d = digest_bytes[built.code];

    switch (number) {
    case LUFFA_WIDTH:
        s.code = unknown[way];
        break;
    case LUFFA_OUT:
        s.out_len = way;
        break;
    case LUFFA_SHEET:
        if (way < COUNT_OF(too_many)) {
            s.n = too_many[way];
        } else if (way == COUNT_OF(too_many)) {
            /* Too many, though there is room for them. */
            s.n = MOST + 1;
            s.sheet_len = sizeof s.sheet;
            s.marks_len = COUNT_OF(s.marks);
            s.old_len = COUNT_OF(s.old);
        } else {
            s.sheet_len = way == COUNT_OF(too_many) + 1 ? RECORD * n - 1 : 0;
        }
        break;
    case LUFFA_MARKS:
        s.marks_len = way == 0 ? LUFFA_MARKS_FOR(n) - 1 : way == 1 ? MARK * (n / 4) : 0;
        break;
    case LUFFA_SET:
        spoil_set(way);
        break;
    case LUFFA_PLACES:
        s.old_len = way == 0 ? n - 1 : way == 1 ? 0 : n / 2;
        break;
    case LUFFA_PLACE:
        s.place = n + beyond[way];
        if (s.places_len == 0)
            add_place(0);
        s.places[s.places_len - 1] = s.place;
        break;
    case LUFFA_FULL:
        if (way < 2)
            s.sheet_len = RECORD * n + (way == 0 ? 0 : RECORD - 1);
        else
            s.marks_len = way == 2 ? LUFFA_MARKS_FOR(n) : LUFFA_MARKS_FOR(n + 1) - 1;
        break;
    case LUFFA_SIZE:
        s.record_len = no_record[way];
        /* The last of a batch; where there is none, any bytes are too many. */
        s.records_len += s.places_len > 0 ? no_record[way] - RECORD : way > 0 ? no_record[way] : RECORD;
        break;
    case LUFFA_CLAIM:
        s.claim_len = no_claim[way] != d ? no_claim[way] : d - 1;
        break;
    case LUFFA_OWN:
        spoil_own(way);
        break;
    case LUFFA_STALE:
        s.claim[way] ^= 0x10;
        if (brings_own(call))
            s.own[MARK * (way % (n / 4) + 1) + way % (state_bytes[built.code] / 4)] ^= 1u << way % 32;
        break;
    default:
        s.claim[way] ^= 0x01;
    }
}

/* Sets of refusals, as bits: those that a call has. */
static const unsigned plain_has[] = {
    [BUILD] = 1 << 1 | 1 << 2 | 1 << 5 | 1 << 6,
    [CHANGE] = 1 << 1 | 1 << 2 | 1 << 5 | 1 << 6 | 1 << 7 | 1 << 9 | 1 << 10 | 1 << 11,
    [APPEND] = 1 << 1 | 1 << 2 | 1 << 5 | 1 << 6 | 1 << 8 | 1 << 9 | 1 << 10 | 1 << 11,
    [DROP] = 1 << 1 | 1 << 2 | 1 << 5 | 1 << 6 | 1 << 7 | 1 << 10 | 1 << 11,
    [BATCH] = 1 << 1 | 1 << 2 | 1 << 5 | 1 << 6 | 1 << 14 | 1 << 7 | 1 << 9 | 1 << 10 | 1 << 11,
    [CLOSE_UP] = 1 << 1 | 1 << 2 | 1 << 5 | 1 << 6 | 1 << 23 | 1 << 10 | 1 << 11,
};

static unsigned has(enum call call) { return plain_has[plain(call)] | (brings_own(call) ? 1 << 15 | 1 << 16 : 0); }

/* What this n is refused whatever else is given: a change or a drop of nothing, an append to a full
   sheet. */
static unsigned always(enum call call)
{
    if ((plain(call) == CHANGE || plain(call) == DROP) && built.n == 0)
        return 1 << LUFFA_PLACE;
    return plain(call) == APPEND && built.n == MOST ? 1 << LUFFA_FULL : 0;
}

static void refused(enum call call, unsigned set)
{
    size_t i = 0;

    set |= always(call);
    while (!(set >> order[i] & 1))
        i++;
    sheet_call(order[i], call, &s);
}

static void alone(enum call call)
{
    for (size_t i = 0; i < COUNT_OF(order); i++)
        for (size_t way = 0; has(call) >> order[i] & 1 && way < ways(call, order[i]); way++) {
            put_right();
            spoil(call, order[i], way);
            refused(call, 1u << order[i]);
        }
}

/* Every set of refusals, each of them in one of its ways in turn. The later ones go first: an earlier
   one may give another n or another length, and only the first has to hold in the end. */
static void together(enum call call)
{
    static size_t turn;
    unsigned can = has(call);

    for (size_t i = 0; i < COUNT_OF(order); i++)
        if (ways(call, order[i]) == 0)
            can &= ~(1u << order[i]);
    for (unsigned set = can; set != 0; set = (set - 1) & can) {
        put_right();
        for (size_t i = COUNT_OF(order); i-- > 0;)
            if (set >> order[i] & 1)
                spoil(call, order[i], turn++ % ways(call, order[i]));
        refused(call, set);
    }
}

/* Buffers of no bytes may be null pointers. */
static void null_pointers(size_t code)
{
    uint32_t marks[MARK];
    uint8_t record[RECORD] = {0}, sheet[RECORD], digest[LUFFA_512_BYTES], out[LUFFA_512_BYTES];
    size_t d = digest_bytes[code], place = 0;

    check(luffa_sheet_build(code, NULL, 0, 0, marks, MARK, digest, d).number == LUFFA_DONE, "no sheet");
    check(luffa_sheet_build(code, NULL, 0, 0, marks, MARK, NULL, 0).number == LUFFA_OUT, "no output buffer");
    check(luffa_sheet_build(code, NULL, 0, 1, marks, MARK, out, d).number == LUFFA_SHEET, "no sheet of one record");
    check(luffa_sheet_build(code, NULL, 0, 0, NULL, 0, out, d).number == LUFFA_MARKS, "no marks");
    check(luffa_sheet_drop(code, NULL, 0, 0, marks, MARK, NULL, 0, out, d).number == LUFFA_PLACE, "drop of nothing");
    check(luffa_sheet_append(code, NULL, 0, 0, marks, MARK, record, RECORD, digest, d, out, d).number == LUFFA_FULL,
          "append to no sheet");
    check(luffa_sheet_append(code, record, RECORD, 0, marks, MARK, NULL, 0, digest, d, out, d).number == LUFFA_SIZE,
          "no record");
    check(luffa_sheet_append(code, out, RECORD, 0, marks, MARK, record, RECORD, NULL, 0, digest, d).number ==
              LUFFA_CLAIM,
          "no claim");
    check(luffa_sheet_change(0, NULL, 0, 0, NULL, 0, 0, NULL, 0, NULL, 0, NULL, 0).number == LUFFA_WIDTH, "nothing");
    check(luffa_sheet_batch(0, NULL, 0, 0, NULL, 0, NULL, 0, NULL, 0, NULL, 0, NULL, 0).number == LUFFA_WIDTH,
          "nothing");
    check(luffa_sheet_batch(code, record, RECORD, 1, marks, MARK, &place, 1, NULL, 0, digest, d, out, d).number ==
              LUFFA_SIZE,
          "no records");
    check(luffa_sheet_batch(code, NULL, 0, 0, marks, MARK, NULL, 0, NULL, 0, NULL, 0, out, d).number == LUFFA_CLAIM,
          "no changes, no claim");
    check(luffa_sheet_batch(code, NULL, 0, 0, marks, MARK, NULL, 0, NULL, 0, digest, d, out, d).number == LUFFA_DONE &&
              memcmp(out, digest, d) == 0,
          "no changes of nothing");
    check(luffa_sheet_close_up(0, NULL, 0, 0, NULL, 0, NULL, 0, NULL, 0, NULL, 0).number == LUFFA_WIDTH, "nothing");
    check(luffa_sheet_close_up(code, record, RECORD, 1, marks, MARK, digest, d, NULL, 0, out, d).number == LUFFA_PLACES,
          "no list");
    check(luffa_sheet_close_up(code, NULL, 0, 0, marks, MARK, NULL, 0, NULL, 0, out, d).number == LUFFA_CLAIM,
          "no records, no claim");
    check(luffa_sheet_close_up(code, NULL, 0, 0, marks, MARK, digest, d, NULL, 0, out, d).number == LUFFA_DONE &&
              memcmp(out, digest, d) == 0,
          "a close up of nothing");
    check(luffa_sheet_change_own(0, NULL, 0, 0, NULL, 0, 0, NULL, 0, NULL, 0, 0, NULL, 0, NULL, 0).number ==
              LUFFA_WIDTH,
          "nothing");
    check(luffa_sheet_drop_own(code, NULL, 0, 0, marks, MARK, NULL, 0, 0, NULL, 0, out, d).number == LUFFA_PLACE,
          "drop of nothing");
    check(luffa_sheet_append_own(code, sheet, RECORD, 0, marks, MARK, record, RECORD, digest, d, 0, NULL, 0, out, d)
                  .number == LUFFA_OWN,
          "no own marks");
}

/* Sheets of over a thousand records take longer, and would show no other set; with own marks there are four times as
   many sets, and each count has them at one code. */
static void all(enum call call, int in_turn)
{
    int small = built.n < 1000;

    if (small || in_turn || !brings_own(call))
        alone(call);
    if (brings_own(call) ? in_turn : small || built.code == 4)
        together(call);
}

int main(void)
{
    static const size_t counts[] = {0, 1, 3, 4, 5, 11, MOST - 1, MOST};

    for (size_t code = 1; code <= 4; code++) {
        for (size_t i = 0; i < COUNT_OF(counts); i++) {
            any_sheet(&built, code, counts[i], 1);
            /* A close up that isn't refused would show. */
            if (counts[i] > 0)
                strike(&built, counts[i] / 2);
            sheet_call(LUFFA_DONE, BUILD, &built);
            open_own(&built);
            s = built;
            int in_turn = i % 4 + 1 == code;
            for (int call = BUILD; call <= DROP_OWN; call++)
                all((enum call)call, in_turn);
            /* And nothing was wrong with the sheet. */
            put_right();
            sheet_call(LUFFA_DONE, BATCH, &s);
            sheet_call(counts[i] < MOST ? LUFFA_DONE : LUFFA_FULL, APPEND, &s);
            sheet_call(LUFFA_DONE, DROP, &s);
            sheet_call(LUFFA_DONE, CLOSE_UP, &s);

            /* The empty set is held to the same, for each count at one code. */
            if (!in_turn)
                continue;
            batch_of(&built, 0, 0, 0);
            s = built;
            all(BATCH, in_turn);
            put_right();
            sheet_call(LUFFA_DONE, BATCH, &s);
        }
        null_pointers(code);
    }
    return 0;
}
