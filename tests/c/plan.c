/* The check of content on a small sheet, sound as it is: each rule just kept, broken alone, and broken
   beside others, also among struck records; what isn't looked at; struck wells; a full sheet; and the
   refusals. */
#include "test.h"

static uint8_t sheet[RECORD * ROOM_FOR];

static void answers_of(size_t n, uint64_t rule, uint64_t place)
{
    plan_call((struct luffa_content_answer){LUFFA_DONE, rule, place}, sheet, RECORD * n, n);
}

static void answers(uint64_t rule, uint64_t place) { answers_of(WELLS, rule, place); }

static const struct {
    uint64_t rule, place;
    struct edit edits[3];
} examples[] = {
    {LUFFA_RULE_NUMBER, 2, {{2, NUMBER, 0}}},
    {LUFFA_RULE_NUMBER, 8, {{8, NUMBER, 0}}},
    {LUFFA_RULE_KIND, 2, {{2, KIND, 0}}},
    {LUFFA_RULE_KIND, 2, {{2, KIND, 3}}},
    {LUFFA_RULE_KIND, 2, {{2, KIND, 129}}},
    {LUFFA_RULE_KIND, 2, {{2, KIND, 255}}},

    /* Too many; none and a rate; some and no rate; an injector's, even in good order. */
    {LUFFA_RULE_LINK_COUNT, 3, {{3, LINK_COUNT, 5}}},
    {LUFFA_RULE_LINK_COUNT, 3, {{3, LINK_COUNT, 128 + 4}}},
    {LUFFA_RULE_LINK_COUNT, 3, {{3, LINK_COUNT, 255}}},
    {LUFFA_RULE_LINK_COUNT, 2, {{2, RATE, 1}}},
    {LUFFA_RULE_LINK_COUNT, 2, {{2, RATE, 65536}}},
    {LUFFA_RULE_LINK_COUNT, 0, {{0, RATE, 0}}},
    {LUFFA_RULE_LINK_COUNT, 5, {{5, LINK_COUNT, 0}}},
    {LUFFA_RULE_LINK_COUNT, 1, {{1, LINK_COUNT, 1}, {1, INJECTOR(0), 21}, {1, SHARE(0), 1000}}},
    {LUFFA_RULE_LINK_COUNT, 1, {{1, LINK_COUNT, 255}}},

    {LUFFA_RULE_RATE, 3, {{3, RATE, 100001}}},
    {LUFFA_RULE_RATE, 4, {{4, RATE, 100001}}},
    {LUFFA_RULE_RATE, 6, {{6, RATE, 65536 + 100000}}},
    {LUFFA_RULE_RATE, 6, {{6, RATE, 0x01000001}}},
    {LUFFA_RULE_RATE, 6, {{6, RATE, 0x80000000}}},

    /* Nobody, a producer, the well itself, number 0, a well of no kind. */
    {LUFFA_RULE_LINKS, 0, {{0, INJECTOR(1), 23}}},
    {LUFFA_RULE_LINKS, 0, {{0, INJECTOR(1), 11}}},
    {LUFFA_RULE_LINKS, 0, {{0, INJECTOR(0), 10}}},
    {LUFFA_RULE_LINKS, 0, {{0, INJECTOR(0), 0}}},
    {LUFFA_RULE_LINKS, 3, {{7, KIND, 3}}},
    {LUFFA_RULE_LINKS, 3, {{7, KIND, 128 + 2}}},
    /* One that is there, though faulty itself, or not the only well of its number. */
    {LUFFA_RULE_NUMBER, 1, {{1, NUMBER, 0}, {0, INJECTOR(0), 0}}},
    {LUFFA_RULE_LINK_COUNT, 4, {{4, LINK_COUNT, 1}}},
    {LUFFA_RULE_UNUSED_LINKS, 4, {{4, INJECTOR(0), 20}}},
    {LUFFA_RULE_REPEAT, 4, {{2, NUMBER, 21}}},
    {LUFFA_RULE_REPEAT, 5, {{5, NUMBER, 20}}},

    /* A share of 0 or over 1000, with the right total where there can be one; totals by themselves. */
    {LUFFA_RULE_SHARES, 0, {{0, SHARE(0), 0}, {0, SHARE(1), 1000}}},
    {LUFFA_RULE_SHARES, 0, {{0, SHARE(0), 1000}, {0, SHARE(1), 0}}},
    {LUFFA_RULE_SHARES, 0, {{0, SHARE(0), 65535}, {0, SHARE(1), 1001}}},
    {LUFFA_RULE_SHARES, 5, {{5, SHARE(0), 1001}}},
    {LUFFA_RULE_SHARES, 5, {{5, SHARE(0), 999}}},
    {LUFFA_RULE_SHARES, 0, {{0, SHARE(0), 599}}},
    {LUFFA_RULE_SHARES, 0, {{0, SHARE(0), 601}}},
    {LUFFA_RULE_SHARES, 0, {{0, SHARE(0), 600 + 256}}},
    {LUFFA_RULE_SHARES, 0, {{0, SHARE(0), 100}}},
    {LUFFA_RULE_SHARES, 3, {{3, SHARE(0), 1000}, {3, SHARE(1), 26}}},

    {LUFFA_RULE_REPEAT, 2, {{2, NUMBER, 10}}},
    {LUFFA_RULE_REPEAT, 2, {{2, NUMBER, 20}}},
    {LUFFA_RULE_REPEAT, 7, {{7, NUMBER, 10}, {3, INJECTOR(0), 10}}},
    {LUFFA_RULE_REPEAT, 8, {{8, NUMBER, 65535}}},
    {LUFFA_RULE_REPEAT, 2, {{2, NUMBER, 10}, {5, NUMBER, 10}}},

    /* At one place the first rule is given. */
    {LUFFA_RULE_NUMBER, 2, {{2, NUMBER, 0}, {2, KIND, 3}}},
    {LUFFA_RULE_KIND, 2, {{2, KIND, 3}, {2, LINK_COUNT, 5}}},
    {LUFFA_RULE_KIND, 2, {{2, KIND, 0}, {2, RATE, 5}}},
    {LUFFA_RULE_KIND, 0, {{0, KIND, 3}}},
    {LUFFA_RULE_LINK_COUNT, 2, {{2, RATE, 200000}}},
    {LUFFA_RULE_RATE, 0, {{0, RATE, 100001}, {0, INJECTOR(1), 23}}},
    {LUFFA_RULE_LINKS, 0, {{0, INJECTOR(1), 20}, {0, SHARE(1), 399}}},
    {LUFFA_RULE_SHARES, 0, {{0, SHARE(1), 399}, {0, SHARE(2), 1}}},
    {LUFFA_RULE_UNUSED_LINKS, 2, {{2, NUMBER, 10}, {2, INJECTOR(0), 20}}},
    {LUFFA_RULE_LINKS, 5, {{5, NUMBER, 10}, {5, INJECTOR(0), 10}}},
    /* Of two places the lower. */
    {LUFFA_RULE_RATE, 1, {{1, RATE, 100001}, {2, NUMBER, 0}}},
    {LUFFA_RULE_UNUSED_LINKS, 0, {{0, SHARE(3), 1}, {2, KIND, 0}}},
    {LUFFA_RULE_LINKS, 0, {{0, INJECTOR(1), 23}, {7, RATE, 100001}}},
    {LUFFA_RULE_REPEAT, 2, {{2, NUMBER, 10}, {4, RATE, 100001}}},
    {LUFFA_RULE_SHARES, 3, {{3, SHARE(3), 996}, {5, LINK_COUNT, 0}}},
};

static void small_sheet(void)
{
    sound_sheet(sheet);
    answers(LUFFA_SOUND, 0);
    for (size_t i = 0; i < COUNT_OF(examples); i++) {
        sound_sheet(sheet);
        for (size_t k = 0; k < COUNT_OF(examples[i].edits); k++) {
            struct edit e = examples[i].edits[k];
            put(sheet, e.place, e.at, e.bytes, e.value);
        }
        answers(examples[i].rule, examples[i].place);
        put_among_struck(sheet, WELLS);
        answers_of(AMONG_STRUCK(WELLS), examples[i].rule, 2 * examples[i].place + 1);
    }

    /* Each byte of an unused link, and of a note. */
    for (size_t place = 0; place < WELLS; place++) {
        sound_sheet(sheet);
        for (size_t at = LUFFA_LINK_INJECTOR(sheet[RECORD * place + LUFFA_WELL_LINK_COUNT]); at < RECORD; at++) {
            uint8_t was = sheet[RECORD * place + at];
            put(sheet, place, at, 1, was ^ 1u << at % 8);
            if (at < LUFFA_WELL_NOTE)
                answers(LUFFA_RULE_UNUSED_LINKS, place);
            else
                answers(LUFFA_SOUND, 0);
            put(sheet, place, at, 1, was);
        }
    }

    /* Each link missing, and each two of them alike. */
    for (size_t k = 0; k < LUFFA_LINKS_MOST; k++)
        for (size_t m = 0; m < LUFFA_LINKS_MOST; m++) {
            static const uint32_t links[] = {65535, 20, 21, 22};
            sound_sheet(sheet);
            put(sheet, 3, INJECTOR(k), k == m ? 23 : links[m]);
            answers(LUFFA_RULE_LINKS, 3);
        }

    /* Numbers that differ in one bit are two wells. */
    for (uint32_t bit = 1; bit <= 0x8000; bit *= 2) {
        sound_sheet(sheet);
        put(sheet, 2, NUMBER, 10 ^ bit);
        answers(LUFFA_SOUND, 0);
        put(sheet, 3, INJECTOR(0), 65535 ^ bit);
        answers(LUFFA_RULE_LINKS, 3);
    }
}

/* Every set of wells struck from the small sheet: what breaks a rule then is a link to one of them, by the first
   producer that stands and has one. */
static void struck_wells(void)
{
    static const struct {
        size_t place;
        unsigned injectors; /* the places of those that it links */
    } producers[] = {{0, 1 << 1 | 1 << 4}, {3, 1 << 1 | 1 << 4 | 1 << 6 | 1 << 7}, {5, 1 << 6}};

    for (unsigned set = 0; set < 1u << WELLS; set++) {
        uint64_t rule = LUFFA_SOUND, place = 0;
        sound_sheet(sheet);
        for (size_t i = 0; i < WELLS; i++)
            if (set >> i & 1)
                memset(sheet + RECORD * i, 0, RECORD);
        for (size_t k = COUNT_OF(producers); k-- > 0;)
            if (!(set >> producers[k].place & 1) && (set & producers[k].injectors) != 0) {
                rule = LUFFA_RULE_LINKS;
                place = producers[k].place;
            }
        answers(rule, place);
    }
    /* Nobody repeats a struck well's number, and nobody can link the number 0. */
    sound_sheet(sheet);
    memset(sheet, 0, RECORD);
    put(sheet, 2, NUMBER, 10);
    answers(LUFFA_SOUND, 0);
    put(sheet, 5, INJECTOR(0), 0);
    answers(LUFFA_RULE_LINKS, 5);
}

/* Records without a well's bytes. With any bit set, if only in the note, a record isn't struck. */
static void nearly_struck(void)
{
    enum { N = 5 };

    memset(sheet, 0, sizeof sheet);
    for (size_t n = 0; n <= N; n++)
        answers_of(n, LUFFA_SOUND, 0);
    answers_of(MOST - 1, LUFFA_SOUND, 0);
    answers_of(MOST, LUFFA_SOUND, 0);
    for (size_t place = 0; place < N; place++)
        for (size_t bit = 0; bit < 8 * RECORD; bit++) {
            put(sheet, place, bit / 8, 1, 1u << bit % 8);
            answers_of(N, bit < 16 ? LUFFA_RULE_KIND : LUFFA_RULE_NUMBER, place);
            put(sheet, place, bit / 8, 1, 0);
        }
    put(sheet, MOST - 1, LUFFA_WELL_NOTE, 1, 1);
    answers_of(MOST, LUFFA_RULE_NUMBER, MOST - 1);
    answers_of(MOST - 1, LUFFA_SOUND, 0);
}

/* Only the first n records of the buffer are the sheet; what lies behind is no well of it. */
static void parts(void)
{
    struct luffa_content_answer sound = {LUFFA_DONE, LUFFA_SOUND, 0};
    struct luffa_content_answer at_0 = {LUFFA_DONE, LUFFA_RULE_LINKS, 0}, at_3 = {LUFFA_DONE, LUFFA_RULE_LINKS, 3};

    sound_sheet(sheet);
    for (size_t n = 0; n <= WELLS; n++) {
        /* The producers at 0 and 3 have their last injectors at 4 and 7. */
        struct luffa_content_answer want = n == 0 || n > 7 ? sound : n > 4 ? at_3 : at_0;
        plan_call(want, sheet, RECORD * n, n);
        plan_call(want, sheet, RECORD * WELLS, n);
    }
    memcpy(sheet + RECORD * WELLS, sheet, RECORD);
    for (size_t more = 0; more <= RECORD + 1; more++)
        plan_call(sound, sheet, RECORD * WELLS + more, WELLS);
}

/* Injectors whose numbers have their low bits in common, and a producer that links the first, one in
   the middle and the last of them. */
static void full_sheet(size_t n)
{
    enum { PRODUCER_AT = 2 };
    struct luffa_content_answer want = {LUFFA_DONE, LUFFA_SOUND, 0};
    size_t linked[] = {0, 512, n - 1};

    for (size_t place = 0; place < n; place++)
        put_well(sheet, place, LUFFA_INJECTOR, 64 * (uint32_t)place + 1, (uint32_t)place);
    put_well(sheet, PRODUCER_AT, LUFFA_PRODUCER, 2, 1);
    for (size_t k = 0; k < COUNT_OF(linked); k++)
        add_link(sheet, PRODUCER_AT, 64 * (uint32_t)linked[k] + 1, k == 0 ? 998 : 1);
    plan_call(want, sheet, RECORD * n, n);
    want.rule = LUFFA_RULE_RATE;
    for (size_t k = 0; k < COUNT_OF(linked); k++) {
        want.place = linked[k];
        put(sheet, want.place, RATE, LUFFA_RATE_MOST + 1);
        plan_call(want, sheet, RECORD * n, n);
        put(sheet, want.place, RATE, 0);
    }
    /* The last gets the number of the second, and is linked by it. */
    want.rule = LUFFA_RULE_REPEAT;
    put(sheet, n - 1, NUMBER, 64 + 1);
    put(sheet, PRODUCER_AT, INJECTOR(2), 64 + 1);
    plan_call(want, sheet, RECORD * n, n);
}

/* A refused answer has no rule and no place, whatever the sheet is. */
static void refusals(void)
{
    struct luffa_content_answer sound = {LUFFA_DONE, LUFFA_SOUND, 0}, refused = {LUFFA_SHEET, 0, 0};

    for (int faulty = 0; faulty <= 1; faulty++) {
        sound_sheet(sheet);
        put(sheet, 1, RATE, faulty ? LUFFA_RATE_MOST + 1 : 0);
        for (size_t i = 0; i < COUNT_OF(too_many); i++) {
            plan_call(refused, sheet, RECORD * WELLS, too_many[i]);
            plan_call(refused, sheet, 0, too_many[i]);
        }
        plan_call(refused, sheet, RECORD * (MOST + 1), MOST + 1);
        for (size_t n = 1; n <= WELLS; n++)
            plan_call(refused, sheet, RECORD * n - 1, n);
        plan_call(refused, sheet, RECORD * MOST - 1, MOST);
        plan_call(refused, sheet, 0, 1);
    }
    plan_call(sound, sheet, 0, 0);

    struct luffa_content_answer none = luffa_plan_check(NULL, 0, 0), one = luffa_plan_check(NULL, 0, 1);
    check(none.number == LUFFA_DONE && none.rule == LUFFA_SOUND && none.place == 0, "no sheet");
    check(one.number == LUFFA_SHEET && one.rule == 0 && one.place == 0, "no sheet of one record");
}

int main(void)
{
    small_sheet();
    struck_wells();
    nearly_struck();
    parts();
    full_sheet(MOST - 1);
    full_sheet(MOST);
    refusals();
    return 0;
}
