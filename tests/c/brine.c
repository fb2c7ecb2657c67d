/* The brine statement: injectors filled to the kilogram, sound, faulted and empty sheets in every order,
   each also among struck records, the largest figures, and each refusal, alone and before those that come
   later. brine_call judges the lists, and that nothing else changes. */
#include "test.h"

/* A batch is written sheet by sheet, each record with the figures that it must get. */
static struct batch b;
static size_t records;

static void begin(void) { b.counts_len = records = 0; }

static void next_sheet(void) { b.counts[b.counts_len++] = 0; }

static void figures(uint64_t intake, int64_t spare)
{
    b.intake[records] = intake;
    b.spare[records] = spare;
    b.counts[b.counts_len - 1]++;
    records++;
}

static void producer(uint32_t number, uint32_t rate)
{
    put_well(b.sheets, records, LUFFA_PRODUCER, number, rate);
    figures(0, 0);
}

/* A link of the producer that was written last. */
static void sends(uint32_t injector, uint32_t share) { add_link(b.sheets, records - 1, injector, share); }

static void injector(uint32_t number, uint32_t rate, uint64_t intake, int64_t spare)
{
    put_well(b.sheets, records, LUFFA_INJECTOR, number, rate);
    figures(intake, spare);
}

static void struck(void)
{
    memset(b.sheets + RECORD * records, 0, RECORD);
    figures(0, 0);
}

static void just_enough(void)
{
    b.sheets_len = RECORD * records;
    b.intake_len = b.spare_len = records;
}

/* The page, in buffers that are each just enough or have more than that. */
static void page(uint64_t sound, uint64_t faulted, uint64_t intake, uint64_t overloaded)
{
    for (unsigned more = 0; more < 8; more++) {
        just_enough();
        b.sheets_len += more & 1 ? RECORD - 1 : 0;
        b.intake_len += more & 2 ? 1 : 0;
        b.spare_len += more & 4 ? 3 : 0;
        brine_call((struct luffa_brine_answer){LUFFA_DONE, sound, faulted, intake, overloaded}, &b);
    }
}

/* A producer's rate, its share for the injector judged, and that one's rate, with its figures. */
static const struct {
    uint32_t sent, share, rate;
    uint64_t intake;
    int64_t spare;
} fits[] = {
    {0, 0, 0, 0, 0},
    {0, 0, 1, 0, 1000},
    {0, 0, 100000, 0, 100000000},
    {1, 1, 0, 1, -1},
    {1, 1, 1, 1, 999},
    {1, 999, 1, 999, 1},
    {1, 1000, 1, 1000, 0},
    {1000, 1, 1, 1000, 0},
    {1001, 1, 1, 1001, -1},
    {999, 1, 1, 999, 1},
    {300, 500, 149, 150000, -1000},
    {300, 500, 150, 150000, 0},
    {300, 500, 151, 150000, 1000},
    {65536, 1000, 0, 65536000, -65536000},
    {99999, 1000, 100000, 99999000, 1000},
    {100000, 1, 100, 100000, 0},
    {100000, 999, 65536, 99900000, -34364000},
    {100000, 1000, 99999, 100000000, -1000},
    {100000, 1000, 100000, 100000000, 0},
};

/* Each in a sheet of its own, and the numbers in all of them are the same. What the injector isn't sent
   goes to another. Each sheet begins with so many struck records. */
static void small_plants(size_t before)
{
    begin();
    for (size_t i = 0; i < COUNT_OF(fits); i++) {
        uint64_t rest = fits[i].sent * (uint64_t)(1000 - fits[i].share);
        next_sheet();
        for (size_t k = 0; k < before; k++)
            struck();
        if (i % 2 == 0)
            injector(65535, fits[i].rate, fits[i].intake, fits[i].spare);
        producer(1, fits[i].sent);
        if (fits[i].share > 0)
            sends(65535, fits[i].share);
        if (rest > 0)
            sends(3, 1000 - fits[i].share);
        injector(3, LUFFA_RATE_MOST, rest, 100000000 - (int64_t)rest);
        if (i % 2 == 1)
            injector(65535, fits[i].rate, fits[i].intake, fits[i].spare);
    }
    page(COUNT_OF(fits), 0, 569439000, 6);
}

/* The small sound sheet by itself, its figures worked out by hand. */
static const struct {
    uint64_t intake;
    int64_t spare;
} small[WELLS] = {
    [1] = {39421600, -39421600}, [4] = {26314400, 73685600}, [6] = {99701000, -99401000}, [7] = {100000, -93000},
};
enum { SMALL_INTAKE = 165537000, SMALL_OVERLOADED = 3 };

static void small_sheet(const struct edit *fault)
{
    size_t start = records;

    next_sheet();
    sound_sheet(b.sheets + RECORD * start);
    for (size_t place = 0; place < WELLS; place++)
        figures(fault ? 0 : small[place].intake, fault ? 0 : small[place].spare);
    if (fault)
        put(b.sheets, start + fault->place, fault->at, fault->bytes, fault->value);
}

/* The same wells among struck records. */
static void struck_sheet(const struct edit *fault)
{
    size_t start = records;

    small_sheet(fault);
    for (size_t more = WELLS; more < AMONG_STRUCK(WELLS); more++)
        figures(0, 0);
    for (size_t place = 0; place < AMONG_STRUCK(WELLS); place++) {
        int well = place % 2 == 1 && fault == NULL;
        b.intake[start + place] = well ? small[place / 2].intake : 0;
        b.spare[start + place] = well ? small[place / 2].spare : 0;
    }
    put_among_struck(b.sheets + RECORD * start, WELLS);
}

/* Up to three sheets, each of them sound, faulted or empty, for every fault. */
static void orders(void (*next)(const struct edit *fault))
{
    for (size_t i = 0; i < COUNT_OF(faults); i++) {
        begin();
        small_sheet(&faults[i]);
        plan_call((struct luffa_content_answer){LUFFA_DONE, i + 1, faults[i].place}, b.sheets, RECORD * WELLS, WELLS);
        for (size_t sheets = 0, orders = 1; sheets <= 3; sheets++, orders *= 3)
            for (size_t order = 0; order < orders; order++) {
                uint64_t sound = 0, faulted = 0, empty = 0;
                begin();
                for (size_t k = 0, sorts = order; k < sheets; k++, sorts /= 3)
                    switch (sorts % 3) {
                    case 0:
                        next(NULL);
                        sound++;
                        break;
                    case 1:
                        next(&faults[i]);
                        faulted++;
                        break;
                    default:
                        next_sheet();
                        empty++;
                    }
                page(sound + empty, faulted, sound * SMALL_INTAKE, sound * SMALL_OVERLOADED);
            }
    }
}

/* An injector in the sheet before, in the next, or behind the batch is none of this sheet's. */
static void next_door(void)
{
    begin();
    next_sheet();
    producer(1, 5);
    sends(9, 1000);
    next_sheet();
    injector(9, 5, 0, 5000);
    next_sheet();
    producer(1, 5);
    sends(9, 1000);
    put_well(b.sheets, records, LUFFA_INJECTOR, 9, 5);
    page(1, 2, 0, 0);
    just_enough();
    b.sheets_len += RECORD;
    brine_call((struct luffa_brine_answer){LUFFA_DONE, 1, 2, 0, 0}, &b);
}

/* Injectors whose numbers differ in one bit, each sent another amount. */
static void bits_of_numbers(void)
{
    begin();
    next_sheet();
    for (uint32_t k = 0; k <= 16; k++) {
        uint32_t number = k == 0 ? 0x5555 : 0x5555 ^ 1u << (k - 1);
        injector(number, 0, 1000 * (k + 1), -1000 * (int64_t)(k + 1));
        producer(40000 + k, k + 1);
        sends(number, 1000);
    }
    page(1, 0, 153000, 17);
}

/* Many injectors overloaded, in sheets that are nearly full. */
static void crowd(void)
{
    begin();
    for (size_t k = 0; k < 2; k++) {
        next_sheet();
        for (uint32_t number = 1; number < MOST - 4; number += 5) {
            producer(number, 4);
            for (uint32_t own = 1; own <= 4; own++)
                sends(number + own, 250);
            for (uint32_t own = 1; own <= 4; own++)
                injector(number + own, 0, 1000, -1000);
        }
    }
    page(2, 0, 1632000, 1632);
}

static void refused(uint64_t number) { brine_call((struct luffa_brine_answer){number, 0, 0, 0, 0}, &b); }

/* A byte less than just enough, or a place of either list; then all is just enough. */
static void too_short(void)
{
    just_enough();
    b.sheets_len--;
    refused(LUFFA_SHEET);
    just_enough();
    b.intake_len--;
    refused(LUFFA_LIST);
    just_enough();
    b.spare_len--;
    refused(LUFFA_LIST);
    just_enough();
}

/* A sheet of struck records is sound and has its places on the page, with nothing in them; one bit in the last of them
   makes it faulted. */
static void only_struck(void)
{
    for (size_t n = 0; n <= MOST; n += n < 3 ? 1 : MOST - 3) {
        begin();
        small_sheet(NULL);
        next_sheet();
        for (size_t k = 0; k < n; k++)
            struck();
        small_sheet(NULL);
        page(3, 0, 2 * SMALL_INTAKE, 2 * SMALL_OVERLOADED);
        too_short();
        for (size_t at = 0; n > 0 && at < RECORD; at++) {
            put(b.sheets, WELLS + n - 1, at, 1, 1);
            brine_call((struct luffa_brine_answer){LUFFA_DONE, 2, 1, 2 * SMALL_INTAKE, 2 * SMALL_OVERLOADED}, &b);
            put(b.sheets, WELLS + n - 1, at, 1, 0);
        }
    }
}

/* As many sheets as there can be, each sending all that it can to one injector at another place; and
   the refusals at this edge. */
static void largest(void)
{
    enum { TAKER = 2000 };

    begin();
    for (size_t k = 0; k < SHEETS; k++) {
        next_sheet();
        for (size_t place = 0; place < MOST; place++)
            if (place == 16 * k + k % 16) {
                injector(TAKER, k % 2 ? LUFFA_RATE_MOST : 0, 102300000000, k % 2 ? -102200000000 : -102300000000);
            } else {
                producer((uint32_t)place + 1, LUFFA_RATE_MOST);
                sends(TAKER, 1000);
            }
    }
    just_enough();
    brine_call((struct luffa_brine_answer){LUFFA_DONE, SHEETS, 0, 6547200000000, SHEETS}, &b);

    too_short();
    next_sheet();
    refused(LUFFA_BATCH);
    b.counts_len--;
    b.sheets_len += RECORD;
    b.intake_len++;
    b.spare_len++;
    b.counts[SHEETS - 1]++;
    refused(LUFFA_SHEET);
}

/* In how many ways a refusal can hold of three small sheets. */
enum { BATCH_WAYS = 5, SHEET_WAYS = 3 * COUNT_OF(too_many) + 6, LIST_WAYS = 6 };

static void spoil_counts_len(size_t way)
{
    static const size_t lens[] = {SHEETS + 1, SHEETS + 1, SHEETS + 2, 256, 256 + 3};

    for (b.counts_len = 3; b.counts_len < lens[way]; b.counts_len++)
        b.counts[b.counts_len] = way == 0 ? SIZE_MAX : 0;
}

static void spoil_sheets(size_t way)
{
    /* Such as make few records or few bytes once the sum is cut to 64 bits. */
    static const size_t pairs[][2] = {
        {(size_t)1 << 63, (size_t)1 << 63}, {(size_t)1 << 60, (size_t)1 << 60}, {SIZE_MAX, 1}};
    size_t lens[] = {0, RECORD * (records - 1), RECORD * records - 1};

    if (way < 3 * COUNT_OF(too_many))
        b.counts[way % 3] = too_many[way / 3];
    else if (way < 3 * COUNT_OF(too_many) + 3)
        memcpy(b.counts + 1, pairs[way % 3], sizeof pairs[0]);
    else
        b.sheets_len = lens[way % 3];
}

static void spoil_lists(size_t way)
{
    size_t short_len = way % 2 ? 0 : records - 1;

    if (way / 2 != 0)
        b.intake_len = short_len;
    if (way / 2 != 1)
        b.spare_len = short_len;
}

/* Every way of each with every way of the others, and none; the first in the order is given. */
static void refusals(void)
{
    for (size_t i = 0; i <= BATCH_WAYS; i++)
        for (size_t j = 0; j <= SHEET_WAYS; j++)
            for (size_t k = 0; k <= LIST_WAYS; k++) {
                begin();
                small_sheet(NULL);
                small_sheet(&faults[k]);
                small_sheet(NULL);
                just_enough();
                if (i + j + k == 0) {
                    page(2, 1, 2 * SMALL_INTAKE, 2 * SMALL_OVERLOADED);
                    continue;
                }
                if (k > 0)
                    spoil_lists(k - 1);
                if (j > 0)
                    spoil_sheets(j - 1);
                if (i > 0)
                    spoil_counts_len(i - 1);
                refused(i > 0 ? LUFFA_BATCH : j > 0 ? LUFFA_SHEET : LUFFA_LIST);
            }
}

/* A count that is too large, though there is room for it. */
static void one_too_many(void)
{
    static const size_t counts[][3] = {{MOST + 1, 0, 0}, {0, MOST + 1, 0}, {0, 0, MOST + 1}};

    begin();
    for (size_t k = 0; k < 3; k++)
        next_sheet();
    for (uint32_t number = 1; number <= MOST + 1; number++)
        injector(number, 0, 0, 0);
    just_enough();
    for (size_t k = 0; k < 3; k++) {
        memcpy(b.counts, counts[k], sizeof counts[k]);
        refused(LUFFA_SHEET);
    }
    b.counts[0] = 1;
    b.counts[2]--;
    page(3, 0, 0, 0);
}

/* Buffers without bytes or elements may be null pointers. */
static void null_pointers(void)
{
    struct luffa_brine_answer none = {LUFFA_DONE, 0, 0, 0, 0}, empty = {LUFFA_DONE, 3, 0, 0, 0};
    struct luffa_brine_answer got = luffa_plan_brine(NULL, 0, NULL, 0, NULL, 0, NULL, 0);
    size_t counts[SHEETS + 1] = {0}, one = 1;
    uint64_t intake = 7;
    int64_t spare = -7;

    check(memcmp(&got, &none, sizeof got) == 0, "nothing at all");
    got = luffa_plan_brine(NULL, 0, counts, 3, NULL, 0, NULL, 0);
    check(memcmp(&got, &empty, sizeof got) == 0, "three empty sheets");
    check(luffa_plan_brine(NULL, 0, counts, SHEETS + 1, NULL, 0, NULL, 0).number == LUFFA_BATCH, "65 empty sheets");
    check(luffa_plan_brine(NULL, 0, &one, 1, &intake, 1, &spare, 1).number == LUFFA_SHEET, "no sheet of one record");
    check(luffa_plan_brine(b.sheets, RECORD, &one, 1, NULL, 0, &spare, 1).number == LUFFA_LIST, "no list of intakes");
    check(luffa_plan_brine(b.sheets, RECORD, &one, 1, &intake, 1, NULL, 0).number == LUFFA_LIST, "no list of spares");
    check(intake == 7 && spare == -7, "refused, and something written");
}

int main(void)
{
    for (size_t before = 0; before <= 2; before++)
        small_plants(before);
    orders(small_sheet);
    orders(struck_sheet);
    only_struck();
    next_door();
    bits_of_numbers();
    crowd();
    largest();
    refusals();
    one_too_many();
    null_pointers();
    return 0;
}
