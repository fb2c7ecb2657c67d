/* The words for records and faults, and bytes as text: every rule and every way to break it by hand, random lists sound
   and broken, whose words must agree with the library and be true of the record, and texts there and back. */
#include "records.h"
#include <stdlib.h>
#include <string.h>

/* ---- Faults. */

static struct list list;

/* The words for the fault of the list, or null, in a block of just their room. */
static char *words_of(void)
{
    char *words = malloc(WORDS_MOST);

    check(words != NULL, "no room for words");
    if (!fault_words(words, &list)) {
        free(words);
        return NULL;
    }
    check(all_shown(words, strlen(words)), "words that can't be shown");
    return words;
}

/* Well 23 at place 17 is the one that is broken. Before it are injectors 1 to 16 and a struck record, after it a
   producer. */
enum { PLACE = 17, WELLS = 19 };

static void put_at(size_t place, struct well well, const char *note)
{
    put_well(list.records + RECORD * place, &well, note);
}

static void sound_list(void)
{
    memset(&list, 0, sizeof list);
    list.n = WELLS;
    for (uint32_t i = 0; i < 16; i++)
        put_at(i, (struct well){.number = i + 1, .kind = LUFFA_INJECTOR, .rate = 100}, "");
    put_at(PLACE, (struct well){.number = 23, .kind = 1, .links = 2, .rate = 500, .link = {{1, 600}, {2, 400}}}, "");
    put_at(18, (struct well){.number = 40, .kind = LUFFA_PRODUCER}, "");
}

static const struct {
    struct well well;
    const char *words;
} rules[] = {
    {{.number = 0, .kind = 1}, "place 17: the number is 0"},
    {{.number = 0, .rate = 1}, "place 17: the number is 0"},
    {{.number = 23, .kind = 0, .rate = 1}, "place 17, well 23: the kind is 0, neither producer (1) nor injector (2)"},
    {{.number = 65535, .kind = 255}, "place 17, well 65535: the kind is 255, neither producer (1) nor injector (2)"},
    {{.number = 23, .kind = 3}, "place 17, well 23: the kind is 3, neither producer (1) nor injector (2)"},

    {{.number = 23, .kind = 2, .links = 1}, "place 17, well 23: an injector has no links, and this one has 1"},
    {{.number = 23, .kind = 2, .links = 255}, "place 17, well 23: an injector has no links, and this one has 255"},
    {{.number = 23, .kind = 1, .links = 5, .rate = 1}, "place 17, well 23: there are 5 links, more than 4"},
    {{.number = 23, .kind = 1, .links = 255}, "place 17, well 23: there are 255 links, more than 4"},
    {{.number = 23, .kind = 1, .rate = 500}, "place 17, well 23: the rate is 500, and there is no link"},
    {{.number = 23, .kind = 1, .rate = 4294967295}, "place 17, well 23: the rate is 4294967295, and there is no link"},
    {{.number = 23, .kind = 1, .links = 1, .link = {{1, 1000}}},
     "place 17, well 23: the rate is 0, and there is 1 link"},
    {{.number = 23, .kind = 1, .links = 2, .link = {{1, 500}, {2, 500}}},
     "place 17, well 23: the rate is 0, and there are 2 links"},
    {{.number = 23, .kind = 1, .links = 4}, "place 17, well 23: the rate is 0, and there are 4 links"},

    {{.number = 23, .kind = 2, .rate = 100001}, "place 17, well 23: the rate is 100001, over 100000"},
    {{.number = 23, .kind = 2, .rate = 4294967295}, "place 17, well 23: the rate is 4294967295, over 100000"},
    {{.number = 23, .kind = 1, .links = 1, .rate = 100001, .link = {{1, 1000}}},
     "place 17, well 23: the rate is 100001, over 100000"},

    {{.number = 23, .kind = 1, .links = 1, .rate = 5, .link = {{99, 1000}}},
     "place 17, well 23: link 1 names well 99, which isn't on this sheet"},
    {{.number = 23, .kind = 1, .links = 1, .rate = 5, .link = {{0, 1000}}},
     "place 17, well 23: link 1 names well 0, which isn't on this sheet"},
    {{.number = 23, .kind = 1, .links = 1, .rate = 5, .link = {{40, 1000}}},
     "place 17, well 23: link 1 names well 40, which is no injector"},
    {{.number = 23, .kind = 1, .links = 1, .rate = 5, .link = {{23, 1000}}},
     "place 17, well 23: link 1 names well 23, which is no injector"},
    {{.number = 23, .kind = 1, .links = 4, .rate = 5, .link = {{1, 1}, {2, 1}, {3, 1}, {65535, 1}}},
     "place 17, well 23: link 4 names well 65535, which isn't on this sheet"},
    {{.number = 23, .kind = 1, .links = 2, .rate = 5, .link = {{7, 500}, {7, 500}}},
     "place 17, well 23: links 1 and 2 both name injector 7"},
    {{.number = 23, .kind = 1, .links = 4, .rate = 5, .link = {{1, 1}, {2, 1}, {3, 1}, {2, 1}}},
     "place 17, well 23: links 2 and 4 both name injector 2"},

    {{.number = 23, .kind = 1, .links = 2, .rate = 5, .link = {{1, 0}, {2, 1000}}},
     "place 17, well 23: the share of link 1 is 0, not 1 to 1000"},
    {{.number = 23, .kind = 1, .links = 2, .rate = 5, .link = {{1, 1000}, {2, 65535}}},
     "place 17, well 23: the share of link 2 is 65535, not 1 to 1000"},
    {{.number = 23, .kind = 1, .links = 1, .rate = 5, .link = {{1, 1001}}},
     "place 17, well 23: the share of link 1 is 1001, not 1 to 1000"},
    {{.number = 23, .kind = 1, .links = 2, .rate = 5, .link = {{1, 590}, {2, 400}}},
     "place 17, well 23: the shares total 990, not 1000"},
    {{.number = 23, .kind = 1, .links = 1, .rate = 5, .link = {{1, 1}}},
     "place 17, well 23: the shares total 1, not 1000"},
    {{.number = 23, .kind = 1, .links = 4, .rate = 5, .link = {{1, 1000}, {2, 1000}, {3, 1000}, {4, 1000}}},
     "place 17, well 23: the shares total 4000, not 1000"},

    {{.number = 23, .kind = 2, .link = {{1, 0}}}, "place 17, well 23: link 1 isn't used, and isn't empty"},
    {{.number = 23, .kind = 1, .link = {[3] = {0, 1}}}, "place 17, well 23: link 4 isn't used, and isn't empty"},
    {{.number = 23, .kind = 1, .links = 1, .rate = 5, .link = {{1, 1000}, {0, 0}, {2, 7}}},
     "place 17, well 23: link 3 isn't used, and isn't empty"},

    {{.number = 1, .kind = 2}, "place 17, well 1: place 0 has this number already"},
    {{.number = 16, .kind = 1}, "place 17, well 16: place 15 has this number already"},
};

static void says(const char *want)
{
    char *words = words_of();

    check(words && strcmp(words, want) == 0, "\"%s\", not \"%s\"", words ? words : "sound", want);
    free(words);
}

static void each_rule(void)
{
    static const struct well to_no_number = {.number = 23, .kind = 1, .links = 1, .rate = 5, .link = {{0, 1000}}};

    sound_list();
    check(!words_of(), "a sound list has a fault");
    for (size_t i = 0; i < COUNT_OF(rules); i++) {
        put_at(PLACE, rules[i].well, "");
        says(rules[i].words);
    }

    /* A record of which the note alone isn't zero, and a link to a well of no number. */
    sound_list();
    put_at(16, (struct well){0}, "n");
    says("place 16: the number is 0");
    sound_list();
    put_at(PLACE, to_no_number, "");
    put_at(18, (struct well){.kind = LUFFA_PRODUCER}, "");
    says("place 17, well 23: link 1 names well 0, which is no injector");

    list.n = LUFFA_SHEET_MOST + 1;
    says("the check answers 5");
}

/* Whether a record of the list has this number, and a kind, or any kind where it is 0; and its first place. */
static int is_there(uint32_t number, uint32_t kind, size_t *place)
{
    static const uint8_t zeros[RECORD];

    for (*place = 0; *place < list.n; ++*place) {
        const uint8_t *record = list.records + RECORD * *place;
        if (number_at(record, 2) == number && (kind == 0 || record[2] == kind) && memcmp(record, zeros, RECORD) != 0)
            return 1;
    }
    return 0;
}

/* Whether words have this form to their end, its numbers read into a and on. */
#define HAS_FORM(form, ...) (end = -1, sscanf(said, form "%n", __VA_ARGS__, &end), end == (int)strlen(said))

/* Whether what is said of a record is so. Links are counted from 1. */
static int is_true(const char *said, const uint8_t *record, size_t at)
{
    uint32_t number = number_at(record, 2), kind = record[2], links = record[3], rate = number_at(record + 4, 4);
    uint32_t injector[4], share[4], total = 0;
    unsigned a, b, c;
    size_t place;
    int end;

    for (size_t k = 0; k < 4; k++) {
        injector[k] = number_at(record + 8 + 4 * k, 2);
        share[k] = number_at(record + 10 + 4 * k, 2);
        total += k < links ? share[k] : 0;
    }
    if (strcmp(said, "the number is 0") == 0)
        return number == 0;
    if (HAS_FORM("the kind is %u, neither producer (1) nor injector (2)", &a))
        return a == kind && kind != 1 && kind != 2;
    if (HAS_FORM("an injector has no links, and this one has %u", &a))
        return a == links && kind == 2 && links > 0;
    if (HAS_FORM("there are %u links, more than 4", &a))
        return a == links && kind == 1 && links > 4;
    if (HAS_FORM("the rate is %u, and there is no link", &a))
        return a == rate && kind == 1 && rate > 0 && links == 0;
    if (HAS_FORM("the rate is 0, and there is %u link", &a))
        return a == links && kind == 1 && rate == 0 && links == 1;
    if (HAS_FORM("the rate is 0, and there are %u links", &a))
        return a == links && kind == 1 && rate == 0 && links > 1;
    if (HAS_FORM("the rate is %u, over 100000", &a))
        return a == rate && rate > 100000;
    if (HAS_FORM("link %u names well %u, which is no injector", &a, &b))
        return a >= 1 && a <= links && b == injector[a - 1] && is_there(b, 0, &place) && !is_there(b, 2, &place);
    if (HAS_FORM("link %u names well %u, which isn't on this sheet", &a, &b))
        return a >= 1 && a <= links && b == injector[a - 1] && !is_there(b, 0, &place);
    if (HAS_FORM("links %u and %u both name injector %u", &a, &b, &c))
        return a >= 1 && a < b && b <= links && injector[a - 1] == c && injector[b - 1] == c && is_there(c, 2, &place);
    if (HAS_FORM("the share of link %u is %u, not 1 to 1000", &a, &b))
        return a >= 1 && a <= links && b == share[a - 1] && (b == 0 || b > 1000);
    if (HAS_FORM("the shares total %u, not 1000", &a))
        return a == total && total != 1000 && links > 0;
    if (HAS_FORM("link %u isn't used, and isn't empty", &a))
        return a > links && a <= 4 && (injector[a - 1] != 0 || share[a - 1] != 0);
    if (HAS_FORM("place %u has this number already", &a))
        return is_there(number, 0, &place) && a == place && a < at;
    return 0;
}

/* A sound list: injectors at random places, and producers that link some of them. */
static void any_sound_list(size_t n)
{
    uint32_t injectors[LUFFA_SHEET_MOST];
    size_t count = 0, first = below(60000);

    memset(&list, 0, sizeof list);
    list.n = n;
    for (size_t i = 0; i < n; i++)
        if (!one_in(3)) {
            injectors[count] = (uint32_t)(first + i + 1);
            put_at(i, (struct well){.number = injectors[count++], .kind = 2, .rate = (uint32_t)below(100001)}, "");
        }
    for (size_t i = 0; i < n; i++) {
        struct well well = {.number = (uint32_t)(first + i + 1), .kind = 1};
        uint32_t left = 1000;

        if (number_at(list.records + RECORD * i, 2) != 0 || one_in(8))
            continue;
        for (size_t k = below(count + 1); k < count && well.links < 4; k++, well.links++) {
            well.link[well.links].injector = injectors[k];
            well.link[well.links].share = 1 + (uint32_t)below(left / 2);
            left -= well.link[well.links].share;
        }
        if (well.links > 0) {
            well.rate = 1 + (uint32_t)below(100000);
            well.link[well.links - 1].share += left;
        }
        put_at(i, well, "");
    }
}

/* Breaks a record of the list in one place, or nothing. */
static void break_one(void)
{
    static const uint8_t telling[] = {0, 1, 2, 3, 4, 5, 23, 255};
    uint8_t *record = list.records + RECORD * below(list.n), *other = list.records + RECORD * below(list.n);
    size_t link = 8 + 4 * below(4);

    switch (below(6)) {
    case 0:
        any_bytes(record + below(RECORD), 1);
        break;
    case 1:
        record[below(24)] = telling[below(COUNT_OF(telling))];
        break;
    case 2:
        memcpy(record, other, 2);
        break;
    case 3:
        memcpy(record + link, other, 2);
        break;
    case 4:
        memcpy(record + link, record + 8 + 4 * below(4), 2 + 2 * below(2));
        break;
    default:
        memset(record, 0, one_in(2) ? RECORD : 2);
    }
}

/* The place of the only record with a number: of one that some record has, or of any. */
static void judge_place_of(void)
{
    size_t number = one_in(4) ? below(65536) : number_at(list.records + RECORD * below(list.n), 2);
    size_t count = 0, last = 0;

    for (size_t i = 0; i < list.n; i++)
        if (number_at(list.records + RECORD * i, 2) == number) {
            count++;
            last = i;
        }
    check(place_of(&list, number) == (number == 0 || count == 0 ? list.n : count > 1 ? list.n + 1 : last),
          "well %zu, of which there are %zu, is at place %zu", number, count, place_of(&list, number));
}

/* The words are there where the library finds a fault, name its place and the well, and are true. */
static void random_lists(size_t lists)
{
    size_t met[LUFFA_RULE_REPEAT + 1] = {0};

    for (size_t i = 0; i < lists; i++) {
        struct luffa_content_answer found;
        char *words, begin[64];

        any_sound_list(i % 512 == 0 ? LUFFA_SHEET_MOST : 1 + below(12));
        for (size_t times = below(4); times > 0; times--)
            break_one();
        found = luffa_plan_check(list.records, sizeof list.records, list.n);
        met[found.rule]++;
        words = words_of();
        check(!words == (found.rule == LUFFA_SOUND), "rule %d, and words: %s", (int)found.rule, words ? words : "none");
        if (words) {
            const uint8_t *record = list.records + RECORD * found.place;
            uint32_t number = number_at(record, 2);
            int len = number > 0 ? snprintf(begin, sizeof begin, "place %zu, well %u: ", (size_t)found.place, number)
                                 : snprintf(begin, sizeof begin, "place %zu: ", (size_t)found.place);

            check(strncmp(words, begin, (size_t)len) == 0, "not \"%s..\": %s", begin, words);
            check(is_true(words + len, record, found.place), "not so: %s", words);
        }
        free(words);
        judge_place_of();
    }
    for (size_t rule = 0; rule < COUNT_OF(met); rule++)
        check(met[rule] >= lists / 200, "only %zu lists for rule %zu", met[rule], rule);
}

/* ---- Records in words. */

static void records_in_words(void)
{
    static const struct {
        struct well well;
        const char *note, *words, *unnumbered;
    } examples[] = {
        {{.number = 1, .kind = 1, .links = 2, .rate = 500, .link = {{14, 500}, {15, 500}}}, "north",
         "producer 1, 500 t a day: 14 500, 15 500; north", "producer, 500 t a day: 14 500, 15 500; north"},
        {{.number = 14, .kind = 2, .rate = 600}, "", "injector 14, 600 t a day", "injector, 600 t a day"},
        {{.number = 0}, "", "struck", "struck"},
        {{.number = 0}, "\x1b[2J", "kind 0 0, 0 t a day; \\x1b[2J", "kind 0, 0 t a day; \\x1b[2J"},
        {{.number = 65535, .kind = 255, .links = 1, .rate = 4294967295, .link = {{7, 8}, {0, 0}, {9, 0}, {0, 1}}}, "",
         "kind 255 65535, 4294967295 t a day: 7 8 (unused: 9 0) (unused: 0 1)",
         "kind 255, 4294967295 t a day: 7 8 (unused: 9 0) (unused: 0 1)"},
        {{.number = 3, .kind = 1, .links = 9, .rate = 5, .link = {{1, 2}, {3, 4}, {5, 6}, {7, 8}}}, "",
         "producer 3, 5 t a day: 1 2, 3 4, 5 6, 7 8 (9 links)", "producer, 5 t a day: 1 2, 3 4, 5 6, 7 8 (9 links)"},
    };
    uint8_t record[RECORD];
    char *words = malloc(WORDS_MOST);

    check(words != NULL, "no room for words");
    for (size_t i = 0; i < COUNT_OF(examples); i++) {
        put_well(record, &examples[i].well, examples[i].note);
        check(strcmp(well_words(words, record, 1), examples[i].words) == 0, "record %zu: %s", i, words);
        check(strcmp(well_words(words, record, 0), examples[i].unnumbered) == 0, "record %zu: %s", i, words);
    }
    /* The longest fit, and any can be shown. */
    for (size_t i = 0; i < 100000; i++) {
        any_bytes(record, RECORD);
        record[LUFFA_WELL_LINK_COUNT] = (uint8_t)below(i % 2 ? 8 : 256);
        memset(record + LUFFA_WELL_NOTE, 0xff, i % 3 ? NOTE : 0);
        well_words(words, record, 1);
        check(strlen(words) < WORDS_MOST - 1 && all_shown(words, strlen(words)), "words of %zu bytes", strlen(words));
    }
    free(words);
}

/* ---- Bytes as text. */

/* Writes bytes as text and reads it, each in a block of just its room. Gives whether the text is the bytes. */
static int text_and_back(const uint8_t *bytes, size_t n)
{
    char *text = malloc(TEXT_MOST(n));
    uint8_t *back = malloc(n > 0 ? n : 1), *lent = malloc(n > 0 ? n : 1);
    const char *why = "";
    size_t at = 0, len;
    int same;

    check(text && back && lent, "no room for %zu bytes", n);
    memcpy(lent, bytes, n);
    len = text_from_bytes(text, lent, n);
    check(len < TEXT_MOST(n) && strlen(text) == len, "a text of %zu characters", len);
    check(all_shown(text, len), "a text that can't be shown");
    check(bytes_from_text(back, n, text, len, &at, &why) == (long)n, "not read back: %s at %zu in %s", why, at, text);
    check(memcmp(back, bytes, n) == 0, "read back as other bytes: %s", text);
    if (n > 0)
        check(bytes_from_text(back, n - 1, text, len, &at, &why) < 0 && at < len && strstr(why, "too long"),
              "a byte more than there is room for: %s", text);
    same = len == n && memcmp(text, bytes, n) == 0;
    free(text);
    free(back);
    free(lent);
    return same;
}

/* Reads a text that lies in a block of just its length, into at most 8 bytes. */
static long read_lent(uint8_t room[8], const char *text, size_t *at, const char **why)
{
    size_t len = strlen(text);
    char *lent = malloc(len);
    long n;

    check(lent != NULL, "no room for %zu characters", len);
    memcpy(lent, text, len);
    n = bytes_from_text(room, 8, lent, len, at, why);
    free(lent);
    return n;
}

/* Every character stands as it is, or every byte of it is escaped. */
static void every_character(void)
{
    for (uint32_t c = 0x80; c < 0x110000; c++) {
        size_t n = c < 0x800 ? 2 : c < 0x10000 ? 3 : 4;
        uint8_t bytes[4];

        for (size_t i = n; i-- > 1;)
            bytes[i] = (uint8_t)(0x80 | (c >> 6 * (n - 1 - i) & 0x3f));
        bytes[0] = (uint8_t)(0xf00 >> n | c >> 6 * (n - 1));
        check(text_and_back(bytes, n) == can_be_shown(c), "character %x is %s", c,
              can_be_shown(c) ? "escaped" : "shown");
    }
}

static void texts(void)
{
    static const struct {
        const char *text;
        size_t at;
        const char *why;
    } wrong[] = {
        {"\\", 0, "a backslash"},
        {"\\\\\\", 2, "a backslash"},
        {"ab\\x", 2, "a backslash"},
        {"\\x4", 0, "a backslash"},
        {"\\x4g", 0, "a backslash"},
        {"\\xg4", 0, "a backslash"},
        {"a\\X41", 1, "a backslash"},
        {"abcdefghi", 8, "too long"},
        {"abcdefg\\x41h", 11, "too long"},
        {"\\\\\\\\\\\\\\\\\\\\\\\\\\\\\\\\\\\\", 16, "too long"},
    };
    uint8_t bytes[64], room[8];
    const char *why;
    size_t at;

    check(text_and_back(bytes, 0), "no bytes");
    for (size_t i = 0; i < 256; i++) {
        bytes[0] = (uint8_t)i;
        check(text_and_back(bytes, 1) == (i < 0x80 && can_be_shown((uint32_t)i) && i != '\\'), "byte %zu", i);
        for (size_t k = 0; k < 256; k++) {
            bytes[1] = (uint8_t)k;
            text_and_back(bytes, 2);
        }
    }
    every_character();
    for (size_t i = 0; i < 100000; i++) {
        size_t n = 1 + below(sizeof bytes);
        if (one_in(2))
            any_note(bytes, n);
        else
            any_bytes(bytes, n);
        text_and_back(bytes, n);
    }

    for (size_t i = 0; i < COUNT_OF(wrong); i++)
        check(read_lent(room, wrong[i].text, &at, &why) == -1 && at == wrong[i].at && strstr(why, wrong[i].why),
              "not refused at %zu as %s: %s", wrong[i].at, wrong[i].why, wrong[i].text);
    /* Bytes that would be escaped are taken as they are. */
    check(read_lent(room, "\n\xff\\x4A\"", &at, &why) == 4 && memcmp(room, "\n\xffJ\"", 4) == 0, "bytes as they are");
}

int main(void)
{
    seed(1);
    each_rule();
    random_lists(60000);
    records_in_words();
    texts();
    printf("words: %zu faults by hand, 60000 lists, every character there and back\n", COUNT_OF(rules) + 3);
    return 0;
}
