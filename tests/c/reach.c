/* Who depends on a well: plants worked out by hand, every sheet of up to five wells, full sheets whose wells stand in a
   line, on a torus and around one injector, struck records, wells behind the sheet, numbers that no well has, and each
   refusal, alone and before those that come later. reach_call judges the marks, and that nothing else changes. */
#include "test.h"

enum { HOPS = LUFFA_HOPS_MOST, LINKS = LUFFA_LINKS_MOST, NEVER = 255 };

static uint8_t sheet[RECORD * ROOM_FOR];

/* A well and the injectors that it links: none, if it is one. */
static void put_linked(size_t place, uint32_t kind, uint32_t number, const uint32_t *links, uint32_t count)
{
    put_well(sheet, place, kind, number, count > 0 ? LUFFA_SHARES_TOTAL : 0);
    for (uint32_t k = 0, share = 0; k < count; k++) {
        share = k + 1 < count ? LUFFA_SHARES_TOTAL / count : LUFFA_SHARES_TOTAL - k * share;
        add_link(sheet, place, links[k], share);
    }
}

/* The same among struck records, where there is room for them: they aren't marked but have their bytes, and the number 0
   is nobody's. */
static void among_struck(size_t n, size_t well, const uint8_t *apart)
{
    static uint8_t struck[sizeof sheet];
    size_t all = AMONG_STRUCK(n);

    if (all > MOST)
        return;
    memcpy(struck, sheet, RECORD * n);
    put_among_struck(struck, n);
    for (size_t hops = 0; hops <= HOPS; hops++) {
        uint8_t marks[MOST] = {0};
        for (size_t p = 0; p < n; p++)
            marks[2 * p + 1] = apart[p] <= hops;
        reach_call(LUFFA_DONE, &(struct search){struck, RECORD * all, all, well, hops, all}, marks);
        reach_call(LUFFA_WELL, &(struct search){struck, RECORD * all, all, 0, hops, all}, NULL);
        reach_call(LUFFA_REACH, &(struct search){struck, RECORD * all, all, well, hops, all - 1}, NULL);
    }
}

/* From a well to places that are so many links apart from it, at each number of hops: those that have no more links are
   marked. The buffers are just long enough, or have a record, or three bytes, more: at the same hops otherwise in the
   next search. */
static void from(size_t n, size_t well, const uint8_t *apart)
{
    static size_t searches;
    size_t turn = searches++;

    for (size_t hops = 0; hops <= HOPS; hops++, turn++) {
        struct search s = {sheet, RECORD * (n + turn % 2), n, well, hops, n + (turn & 2 ? 3 : 0)};
        uint8_t marks[MOST];
        for (size_t p = 0; p < n; p++)
            marks[p] = apart[p] <= hops;
        reach_call(LUFFA_DONE, &s, marks);
    }
    among_struck(n, well, apart);
}

static void refused(uint32_t want, size_t n, size_t well, size_t hops)
{
    for (size_t more = 0; more < 2; more++)
        reach_call(want, &(struct search){sheet, RECORD * (n + more), n, well, hops, n + more}, NULL);
}

/* Numbers that would be this well's once they are cut to 16 bits, or to more. */
static void cut_numbers(size_t n, size_t well)
{
    for (size_t bit = 16; bit < 64; bit++)
        for (size_t hops = 0; hops <= HOPS; hops++)
            refused(LUFFA_WELL, n, well | (size_t)1 << bit, hops);
    refused(LUFFA_WELL, n, well - 65536, HOPS);
}

/* ---- By hand. */

/* The fewest links that join the well at each place to each other: one row a well, '.' where no chain does. */
static void each_row(size_t n, const char *const *rows)
{
    uint8_t apart[WELLS];

    for (size_t i = 0; i < n; i++) {
        size_t well = 256u * sheet[RECORD * i] + sheet[RECORD * i + 1];
        for (size_t p = 0; p < n; p++) {
            check(rows[i][p] == rows[p][i], "row %zu of %zu isn't mutual", i, n);
            apart[p] = rows[i][p] == '.' ? NEVER : (uint8_t)(rows[i][p] - '0');
        }
        from(n, well, apart);
        cut_numbers(n, well);
    }
}

static const struct {
    struct {
        uint32_t kind, number, count, links[LINKS];
    } wells[5];
    const char *rows[5];
} plants[] = {
    /* A producer with four injectors, two before it and two after. */
    {{{LUFFA_INJECTOR, 11, 0, {0}},
      {LUFFA_INJECTOR, 12, 0, {0}},
      {LUFFA_PRODUCER, 1, 4, {14, 12, 11, 13}},
      {LUFFA_INJECTOR, 13, 0, {0}},
      {LUFFA_INJECTOR, 14, 0, {0}}},
     {"02122", "20122", "11011", "22102", "22120"}},
    /* Injector 10 is shared by producers 1 and 3, one before it and one after, and 11 by 3 and 2: from end to end it is
       four links, one more than there can be hops. */
    {{{LUFFA_PRODUCER, 1, 1, {10}},
      {LUFFA_INJECTOR, 10, 0, {0}},
      {LUFFA_PRODUCER, 3, 2, {10, 11}},
      {LUFFA_INJECTOR, 11, 0, {0}},
      {LUFFA_PRODUCER, 2, 1, {11}}},
     {"01234", "10123", "21012", "32101", "43210"}},
    /* Two parts that no chain joins, and a producer that stands still. */
    {{{LUFFA_PRODUCER, 1, 1, {10}},
      {LUFFA_PRODUCER, 2, 1, {11}},
      {LUFFA_INJECTOR, 11, 0, {0}},
      {LUFFA_INJECTOR, 10, 0, {0}},
      {LUFFA_PRODUCER, 3, 0, {0}}},
     {"0..1.", ".01..", ".10..", "1..0.", "....0"}},
};

static void plants_by_hand(void)
{
    /* The small sound sheet: producers 10 and 12 share injectors 20 and 21, and 12 and 1 share 22. */
    static const char *const sound[] = {"01.21433.", "10.12322.", "..0......", "21.01211.", "12.10322.",
                                        "43.23013.", "32.12102.", "32.12320.", "........0"};

    for (size_t i = 0; i < COUNT_OF(plants); i++) {
        for (size_t p = 0; p < COUNT_OF(plants[i].wells); p++)
            put_linked(p, plants[i].wells[p].kind, plants[i].wells[p].number, plants[i].wells[p].links,
                       plants[i].wells[p].count);
        each_row(COUNT_OF(plants[i].wells), plants[i].rows);
    }
    sound_sheet(sheet);
    each_row(WELLS, sound);
}

/* ---- Every small sheet. */

enum { SMALL = 5 };

/* Whether a chain of at most so many links joins two places; each place has the set of those that it is linked with. */
static int chain(const unsigned *linked, size_t n, size_t a, size_t b, size_t hops)
{
    if (a == b)
        return 1;
    for (size_t p = 0; hops > 0 && p < n; p++)
        if (linked[a] >> p & 1 && chain(linked, n, p, b, hops - 1))
            return 1;
    return 0;
}

/* Wells whose numbers are shares too, and whose notes name all of them. */
static void put_small(size_t n, unsigned producers, const unsigned *linked)
{
    static const uint32_t numbers[SMALL] = {LUFFA_SHARES_TOTAL, 500, 334, 333, 250};

    for (size_t place = 0; place < n; place++) {
        uint32_t links[SMALL], count = 0;
        for (size_t p = 0; p < n; p++)
            if (producers >> place & linked[place] >> p & 1)
                links[count++] = numbers[p];
        put_linked(place, producers >> place & 1 ? LUFFA_PRODUCER : LUFFA_INJECTOR, numbers[place], links, count);
        for (size_t k = 0; k < (RECORD - LUFFA_WELL_NOTE) / 2; k++)
            put(sheet, place, LUFFA_WELL_NOTE + 2 * k, 2, numbers[k % n]);
    }
}

/* From every well of a sheet. */
static void small_sheet(size_t n, unsigned producers, const unsigned *linked)
{
    put_small(n, producers, linked);
    for (size_t a = 0; a < n; a++) {
        uint8_t apart[SMALL];
        for (size_t p = 0; p < n; p++)
            for (apart[p] = 0; apart[p] <= HOPS && !chain(linked, n, a, p, apart[p]);)
                apart[p]++;
        from(n, 256u * sheet[RECORD * a] + sheet[RECORD * a + 1], apart);
    }
}

/* Every choice of producers, and of the pairs of a producer and an injector that are linked. */
static void small_sheets(size_t n)
{
    for (unsigned producers = 0; producers < 1u << n; producers++) {
        size_t pairs = 0, ends[SMALL * SMALL][2];
        for (size_t a = 0; a < n; a++)
            for (size_t b = 0; b < n; b++)
                if (producers >> a & ~producers >> b & 1) {
                    ends[pairs][0] = a;
                    ends[pairs++][1] = b;
                }
        for (unsigned links = 0; links < 1u << pairs; links++) {
            unsigned linked[SMALL] = {0};
            for (size_t k = 0; k < pairs; k++)
                if (links >> k & 1) {
                    linked[ends[k][0]] |= 1u << ends[k][1];
                    linked[ends[k][1]] |= 1u << ends[k][0];
                }
            small_sheet(n, producers, linked);
        }
    }
}

/* ---- Full sheets, by how many links apart their wells are. The producers are those an odd number from the first. */

static size_t line(size_t i, size_t j) { return i < j ? j - i : i - j; }

static size_t ring(size_t i, size_t j) { return line(i, j) <= 16 ? line(i, j) : 32 - line(i, j); }

static size_t torus(size_t i, size_t j) { return ring(i / 32, j / 32) + ring(i % 32, j % 32); }

static size_t star(size_t i, size_t j) { return i == j ? 0 : i == 0 || j == 0 ? 1 : 2; }

/* Well i stands so many places after the one before it, and its number is so much higher. */
static void full_sheet(size_t n, size_t (*between)(size_t i, size_t j), size_t step, uint32_t rise)
{
    for (size_t i = 0; i < n; i++) {
        int producer = between(0, i) % 2 == 1;
        uint32_t links[LINKS], count = 0;
        for (size_t j = 0; producer && j < n; j++)
            if (between(i, j) == 1)
                links[count++] = rise * (uint32_t)j + 1;
        put_linked(i * step % n, producer ? LUFFA_PRODUCER : LUFFA_INJECTOR, rise * (uint32_t)i + 1, links, count);
    }
    const size_t starts[] = {0, 1, 2, 31, 32, 33, n / 2, n / 2 + 1, n - 2, n - 1};
    for (size_t k = 0; k < COUNT_OF(starts); k++) {
        uint8_t apart[MOST];
        for (size_t j = 0; j < n; j++)
            apart[j * step % n] = between(starts[k], j) < NEVER ? (uint8_t)between(starts[k], j) : NEVER;
        from(n, rise * starts[k] + 1, apart);
    }
}

static void full_sheets(void)
{
    static const struct {
        size_t n;
        size_t (*between)(size_t i, size_t j);
    } shapes[] = {{MOST - 1, line}, {MOST, line}, {MOST, torus}, {MOST, star}};

    for (size_t k = 0; k < COUNT_OF(shapes); k++) {
        size_t n = shapes[k].n;
        full_sheet(n, shapes[k].between, 1, 1);
        full_sheet(n, shapes[k].between, n - 1, 64);
        full_sheet(n, shapes[k].between, 389, 63);
    }
    /* There is room for a record more, but no sheet has it. */
    put_well(sheet, MOST, LUFFA_INJECTOR, 65535, 0);
    refused(LUFFA_SHEET, MOST + 1, 1, HOPS);
}

/* ---- Struck wells. */

static void struck_wells(void)
{
    /* Without producer 12 of the small sheet nobody joins the others. */
    static const uint8_t apart[WELLS] = {0, 1, NEVER, NEVER, 1, NEVER, NEVER, NEVER, NEVER};

    sound_sheet(sheet);
    memset(sheet + RECORD * 3, 0, RECORD);
    from(WELLS, 10, apart);
    refused(LUFFA_WELL, WELLS, 12, HOPS);
    /* Injector 22 is linked still. */
    memset(sheet + RECORD * 6, 0, RECORD);
    refused(LUFFA_UNSOUND, WELLS, 10, 0);
    /* A full sheet of them has no well; one bit in the last makes it unsound. */
    memset(sheet, 0, sizeof sheet);
    for (size_t well = 0; well <= 1; well++)
        for (size_t hops = 0; hops <= HOPS; hops++)
            refused(LUFFA_WELL, MOST, well, hops);
    for (size_t at = 0; at < RECORD; at++) {
        put(sheet, MOST - 1, at, 1, 0x10);
        refused(LUFFA_UNSOUND, MOST, 0, HOPS);
        put(sheet, MOST - 1, at, 1, 0);
    }
    /* The only well among them. */
    put_well(sheet, 500, LUFFA_INJECTOR, 1, 0);
    uint8_t marks[MOST];
    memset(marks, NEVER, sizeof marks);
    marks[500] = 0;
    from(MOST, 1, marks);
    refused(LUFFA_WELL, MOST, 0, HOPS);
}

/* ---- What lies behind the n-th record is no well of the sheet, whoever it links. */

static void parts(void)
{
    static const uint8_t apart[][WELLS + 1] = {{NEVER, NEVER, NEVER, NEVER, NEVER, NEVER, NEVER, NEVER, 0, NEVER},
                                               {3, 2, NEVER, 3, NEVER, NEVER, NEVER, NEVER, 0, 1}};
    static const uint32_t links[] = {20, 256 * 20};

    sound_sheet(sheet);
    put_linked(WELLS, LUFFA_PRODUCER, 70, links, COUNT_OF(links));
    from(WELLS, 256 * 20, apart[0]);
    refused(LUFFA_WELL, WELLS, 70, HOPS);
    from(WELLS + 1, 256 * 20, apart[1]);
    refused(LUFFA_WELL, WELLS - 1, 256 * 20, HOPS);
    /* Without the injector at 7 a link of the producer at 3 names nobody. */
    for (size_t n = 1; n < 8; n++)
        refused(LUFFA_UNSOUND, n, 10, HOPS);
    /* Nor does it matter what is wrong there. */
    put(sheet, WELLS, KIND, 3);
    from(WELLS, 256 * 20, apart[0]);
    refused(LUFFA_UNSOUND, WELLS + 1, 256 * 20, HOPS);
}

/* ---- Refusals. */

/* More hops than there can be: some are few once they are cut. */
static const size_t no_hops[] = {
    HOPS + 1, 5, 128, 255, 256, 256 + HOPS, 65536, (size_t)1 << 32, ((size_t)1 << 32) + HOPS, (size_t)1 << 63, SIZE_MAX,
};

/* Numbers that no well of the small sheet has, though one has what is left of some once they are cut, or the bytes of
   some in the other order. */
static const size_t no_well[] = {
    0,
    2,
    3,
    256 * 10,
    65534,
    65536,
    65536 + 10,
    65539,
    (size_t)1 << 32,
    ((size_t)1 << 32) + 3,
    ((size_t)1 << 32) + 10,
    (size_t)1 << 63,
    ((size_t)1 << 63) + 65535,
    SIZE_MAX,
};

/* The refusals in their order, and in how many ways each can hold of the small sheet. */
static const struct {
    uint32_t number;
    size_t ways;
} refusals[] = {{LUFFA_SHEET, COUNT_OF(too_many) + 3},
                {LUFFA_HOPS, COUNT_OF(no_hops)},
                {LUFFA_UNSOUND, COUNT_OF(faults)},
                {LUFFA_WELL, COUNT_OF(no_well)},
                {LUFFA_REACH, 3}};

static void spoil(struct search *s, uint32_t refusal, size_t way)
{
    static const size_t sheet_lens[] = {0, RECORD * (WELLS - 1), RECORD * WELLS - 1}, lens[] = {0, 1, WELLS - 1};

    switch (refusal) {
    case LUFFA_SHEET:
        if (way < COUNT_OF(too_many))
            s->n = too_many[way];
        else
            s->sheet_len = sheet_lens[way - COUNT_OF(too_many)];
        break;
    case LUFFA_HOPS:
        s->hops = no_hops[way];
        break;
    case LUFFA_UNSOUND:
        put(sheet, faults[way].place, faults[way].at, faults[way].bytes, faults[way].value);
        break;
    case LUFFA_WELL:
        s->well = no_well[way];
        break;
    case LUFFA_REACH:
        s->reached_len = lens[way];
    }
}

/* Every set of them, each in all its ways; the first in the order is given. */
static void sets(void)
{
    enum { TURNS = 360 };

    for (unsigned set = 1; set < 1u << COUNT_OF(refusals); set++)
        for (size_t turn = 0; turn < TURNS; turn++) {
            struct search s = {sheet, RECORD * WELLS, WELLS, turn % 2 ? 10 : 65535, turn % (HOPS + 1), WELLS};
            uint32_t first = 0;
            sound_sheet(sheet);
            for (size_t r = COUNT_OF(refusals); r-- > 0;)
                if (set >> r & 1) {
                    spoil(&s, refusals[r].number, turn % refusals[r].ways);
                    first = refusals[r].number;
                }
            reach_call(first, &s, NULL);
        }
}

/* A sheet of no records is sound, and has no well. Buffers without bytes may be null pointers. */
static void no_records(void)
{
    uint8_t reached = 7;

    sound_sheet(sheet);
    for (size_t len = 0; len <= RECORD; len += RECORD / 2) {
        struct search s = {.sheet = sheet, .sheet_len = len, .reached_len = len};
        for (s.well = 0; s.well <= 10; s.well++)
            for (s.hops = 0; s.hops <= HOPS; s.hops++)
                reach_call(LUFFA_WELL, &s, NULL);
        for (size_t i = 0; i < COUNT_OF(no_hops); i++) {
            s.hops = no_hops[i];
            reach_call(LUFFA_HOPS, &s, NULL);
        }
    }
    check(luffa_plan_reach(NULL, 0, 0, 1, HOPS, NULL, 0) == LUFFA_WELL, "no sheet");
    check(luffa_plan_reach(NULL, 0, 0, 1, HOPS + 1, NULL, 0) == LUFFA_HOPS, "no sheet, and too many hops");
    check(luffa_plan_reach(NULL, 0, 1, 1, HOPS, &reached, 1) == LUFFA_SHEET, "no sheet of one record");
    check(luffa_plan_reach(sheet + RECORD, RECORD, 1, 20, 0, NULL, 0) == LUFFA_REACH, "no marks");
    check(reached == 7, "refused, and something written");
    check(luffa_plan_reach(sheet + RECORD, RECORD, 1, 20, 0, &reached, 1) == LUFFA_DONE && reached == 1, "one well");
}

int main(void)
{
    plants_by_hand();
    for (size_t n = 1; n <= SMALL; n++)
        small_sheets(n);
    full_sheets();
    struck_wells();
    parts();
    sets();
    no_records();
    return 0;
}
