/* Lengths of 4 GiB and more are judged whole: cut to 32 bits, each of these would be answered
   otherwise. The memory is only mapped; a refusal touches none of it, and a digest its first bytes. */
#define _DEFAULT_SOURCE /* MAP_ANONYMOUS */
#include "test.h"
#include <sys/mman.h>

static const size_t WIDE = (size_t)1 << 32;

/* Whether the mapped bytes begin with `bytes` and are zero from there on, as far as is looked. */
static int holds(const uint8_t *mapped, const uint8_t *bytes, size_t n)
{
    static const uint8_t zero[65536];

    return memcmp(mapped, bytes, n) == 0 && memcmp(mapped + n, zero, sizeof zero) == 0 &&
           memcmp(mapped + WIDE, zero, sizeof zero) == 0;
}

/* Batches at wide places. Cut to 32 bits, some of them would be places of the sheet, and some would rise. */
static void wide_places(const struct sheet *s, uint8_t *sheet, uint32_t *marks, uint8_t *out)
{
    const struct {
        size_t count, places[2];
        uint64_t number;
    } batches[] = {
        {1, {WIDE, 0}, LUFFA_PLACE},
        {1, {WIDE + 1, 0}, LUFFA_PLACE},
        {2, {0, WIDE + 1}, LUFFA_PLACE},
        {2, {1, WIDE + 1}, LUFFA_PLACE},
        {2, {3, WIDE + 2}, LUFFA_PLACE},
        {2, {WIDE + 1, WIDE + 3}, LUFFA_PLACE},
        {2, {WIDE, 1}, LUFFA_SET},
        {2, {WIDE + 1, 2}, LUFFA_SET},
        {2, {WIDE + 1, WIDE + 1}, LUFFA_SET},
        {2, {2 * WIDE, WIDE + 1}, LUFFA_SET},
    };

    for (size_t i = 0; i < COUNT_OF(batches); i++)
        check(luffa_sheet_batch(s->code, sheet, WIDE, s->n, marks, WIDE, batches[i].places, batches[i].count,
                                s->records, RECORD * batches[i].count, s->claim, digest_bytes[s->code], out, WIDE)
                      .number == batches[i].number,
              "batch at %zu and %zu at code %zu", batches[i].places[0], batches[i].places[1], s->code);
}

/* Whether wide buffers hold this sheet with its marks and its digest, and zeros from there on. */
static int as(const struct sheet *s, const uint8_t *sheet, const uint32_t *marks, const uint8_t *out)
{
    return memcmp(marks, s->marks, 4 * s->marks_len) == 0 && marks[s->marks_len] == 0 && marks[WIDE] == 0 &&
           holds(sheet, s->sheet, s->sheet_len) && holds(out, s->claim, digest_bytes[s->code]);
}

/* A sheet of five records in wide buffers, and with each length in turn made wide that must not be. */
static void sheets(uint8_t *sheet, uint32_t *marks, uint8_t *out, size_t code)
{
    static struct sheet s;
    size_t d = digest_bytes[code], n = 5;
    uint8_t held[LUFFA_512_BYTES], *wide = out; /* a wide record or claim */

    built_sheet(&s, code, n, 0);
    memcpy(sheet, s.sheet, RECORD * n);
    check(luffa_sheet_build(code, sheet, WIDE, n, marks, WIDE, out, WIDE).number == LUFFA_DONE &&
              as(&s, sheet, marks, out),
          "build in wide buffers at code %zu", code);
    memset(out, 0, d);
    check(luffa_sheet_build(code, sheet, WIDE, WIDE + n, marks, WIDE, out, WIDE).number == LUFFA_SHEET &&
              luffa_sheet_build(code, sheet, WIDE, WIDE, marks, WIDE, out, WIDE).number == LUFFA_SHEET,
          "build of a wide number of records at code %zu", code);
    marks[0] ^= 1;
    check(luffa_sheet_mend(WIDE + code, sheet, WIDE, n, marks, WIDE).number == LUFFA_WIDTH &&
              luffa_sheet_mend(code, sheet, WIDE, WIDE + n, marks, WIDE).number == LUFFA_SHEET &&
              luffa_sheet_mend(code, sheet, WIDE, WIDE, marks, WIDE).number == LUFFA_SHEET &&
              marks[0] == (s.marks[0] ^ 1),
          "mend of a wide number of records at code %zu", code);
    struct luffa_mend_answer mended = luffa_sheet_mend(code, sheet, WIDE, n, marks, WIDE);
    check(mended.number == LUFFA_DONE && mended.wrong == 1 && mended.first == 0 && mended.rounds == 5 &&
              memcmp(marks, s.marks, 4 * s.marks_len) == 0 && marks[s.marks_len] == 0 && marks[WIDE] == 0 &&
              holds(sheet, s.sheet, RECORD * n),
          "mend in wide buffers at code %zu", code);
    check(luffa_sheet_change(code, sheet, WIDE, n, marks, WIDE, WIDE, s.record, RECORD, s.claim, d, out, WIDE).number ==
              LUFFA_PLACE,
          "change at a wide place at code %zu", code);
    wide_places(&s, sheet, marks, out);
    check(luffa_sheet_batch(WIDE + code, sheet, WIDE, n, marks, WIDE, s.places, 1, s.record, RECORD, s.claim, d, out,
                            WIDE)
                      .number == LUFFA_WIDTH &&
              luffa_sheet_batch(code, sheet, WIDE, WIDE + n, marks, WIDE, s.places, 1, s.record, RECORD, s.claim, d,
                                out, WIDE)
                      .number == LUFFA_SHEET,
          "batch of a wide number of records at code %zu", code);
    check(luffa_sheet_change(code, sheet, WIDE, n, marks, WIDE, 0, wide, WIDE + RECORD, s.claim, d, s.out, d).number ==
                  LUFFA_SIZE &&
              luffa_sheet_append(code, sheet, WIDE, n, marks, WIDE, wide, WIDE + RECORD, s.claim, d, s.out, d).number ==
                  LUFFA_SIZE &&
              luffa_sheet_batch(code, sheet, WIDE, n, marks, WIDE, s.places, 1, wide, WIDE + RECORD, s.claim, d, s.out,
                                d)
                      .number == LUFFA_SIZE &&
              luffa_sheet_batch(code, sheet, WIDE, n, marks, WIDE, s.places, 0, wide, WIDE, s.claim, d, s.out, d)
                      .number == LUFFA_SIZE,
          "a wide record at code %zu", code);
    check(luffa_sheet_change(code, sheet, WIDE, n, marks, WIDE, 0, s.record, RECORD, wide, WIDE + d, s.out, d).number ==
                  LUFFA_CLAIM &&
              luffa_sheet_append(code, sheet, WIDE, n, marks, WIDE, s.record, RECORD, wide, WIDE + d, s.out, d)
                      .number == LUFFA_CLAIM &&
              luffa_sheet_drop(code, sheet, WIDE, n, marks, WIDE, wide, WIDE + d, s.out, d).number == LUFFA_CLAIM &&
              luffa_sheet_batch(code, sheet, WIDE, n, marks, WIDE, s.places, 1, s.record, RECORD, wide, WIDE + d, s.out,
                                d)
                      .number == LUFFA_CLAIM,
          "a wide claim at code %zu", code);
    check(holds(sheet, s.sheet, RECORD * n) && holds(out, s.sheet, 0), "refused at code %zu, and something written",
          code);

    check(luffa_sheet_append(code, sheet, WIDE, n, marks, WIDE, s.record, RECORD, s.claim, d, out, WIDE).count == n + 1,
          "append in wide buffers at code %zu", code);
    memcpy(held, out, d);
    check(luffa_sheet_drop(code, sheet, WIDE, n + 1, marks, WIDE, held, d, out, WIDE).count == n &&
              holds(sheet, s.sheet, RECORD * n) && holds(out, s.claim, d),
          "drop in wide buffers at code %zu", code);
    /* One of the changes strikes a record, and the close up takes it away. */
    memset(s.records, 0, RECORD);
    check(luffa_sheet_batch(code, sheet, WIDE, n, marks, WIDE, s.places, s.places_len, s.records, s.records_len,
                            s.claim, d, out, WIDE)
                  .count == n,
          "batch in wide buffers at code %zu", code);
    sheet_call(LUFFA_DONE, BATCH, &s);
    check(as(&s, sheet, marks, out), "batch in wide buffers at code %zu: another sheet", code);
    check(luffa_sheet_close_up(code, sheet, WIDE, n, marks, WIDE, s.claim, d, s.old, n, out, WIDE).count == n - 1,
          "close up in wide buffers at code %zu", code);
    sheet_call(LUFFA_DONE, CLOSE_UP, &s);
    check(as(&s, sheet, marks, out), "close up in wide buffers at code %zu: another sheet", code);
    memset(sheet, 0, RECORD * n);
    memset(marks, 0, 4 * s.marks_len);
    memset(out, 0, d);
}

static uint8_t *map(size_t bytes)
{
    void *mapped = mmap(NULL, bytes, PROT_READ | PROT_WRITE, MAP_PRIVATE | MAP_ANONYMOUS | MAP_NORESERVE, -1, 0);

    check(mapped != MAP_FAILED, "no address space for %zu bytes", bytes);
    return mapped;
}

/* A sheet's page in wide buffers, and then as many sheets, or records of the second. The lists are
   unmapped again, as are those of places: valgrind has no addresses for them beside the marks. */
static void brine(uint8_t *sheets)
{
    size_t counts[] = {WELLS, WIDE}, bytes = 8 * WIDE + 65536;
    uint64_t *intake = (void *)map(bytes), few[WELLS] = {0};
    int64_t *spare = (void *)map(bytes);

    sound_sheet(sheets);
    struct luffa_brine_answer got = luffa_plan_brine(sheets, WIDE, counts, 1, intake, WIDE, spare, WIDE);
    check(got.number == LUFFA_DONE && got.sound == 1 && got.overloaded == 3 && intake[7] == 100000 &&
              spare[7] == -93000 && intake[WELLS] == 0 && spare[WELLS] == 0 && intake[WIDE] == 0 && spare[WIDE] == 0,
          "a page in wide buffers");
    check(luffa_plan_brine(sheets, WIDE, counts, 2, intake, WIDE, spare, WIDE).number == LUFFA_SHEET,
          "a page over a wide number of records");
    memset(intake, 0, 8 * WELLS);
    check(luffa_plan_brine(sheets, WIDE, intake, WIDE, few, WELLS, spare, WIDE).number == LUFFA_BATCH &&
              luffa_plan_brine(sheets, WIDE, intake, WIDE + 1, few, WELLS, spare, WIDE).number == LUFFA_BATCH,
          "a page over a wide number of sheets");
    memset(sheets, 0, RECORD * WELLS);
    munmap(intake, bytes);
    munmap(spare, bytes);
}

/* Marks in wide buffers, whose lengths would be too short once they are cut; and a wide number of records, of hops or
   of a well, each of which would do once it is. */
static void reach(uint8_t *sheet, uint8_t *reached)
{
    static const uint8_t marks[WELLS] = {1, 1, 0, 1, 1}; /* two hops from producer 10 */

    sound_sheet(sheet);
    for (size_t more = 0; more < WELLS; more++) {
        check(luffa_plan_reach(sheet, WIDE + more, WELLS, 10, 2, reached, WIDE + more) == LUFFA_DONE &&
                  holds(reached, marks, WELLS),
              "reach in wide buffers");
        memset(reached, 0, WELLS);
        check(luffa_plan_reach(sheet, WIDE, WIDE + more, 10, 2, reached, WIDE) == LUFFA_SHEET &&
                  luffa_plan_reach(sheet, WIDE, WELLS, 10, WIDE + more, reached, WIDE) == LUFFA_HOPS &&
                  luffa_plan_reach(sheet, WIDE, WELLS, WIDE * (more + 1) + 10, 2, reached, WIDE) == LUFFA_WELL &&
                  holds(reached, marks, 0),
              "reach of a wide number");
    }
    memset(sheet, 0, RECORD * WELLS);
}

/* As many changes as make none, one or the most once they are cut. */
static void batches(void)
{
    static struct sheet s, copy;
    size_t bytes = 8 * WIDE + 65536, *places = (void *)map(bytes);
    const size_t counts[] = {WIDE, WIDE + 1, WIDE + CHANGES};

    for (size_t i = 0; i < CHANGES; i++)
        places[i] = i;
    for (size_t code = 1; code <= 4; code++) {
        built_sheet(&s, code, 2 * CHANGES, 0);
        copy = s;
        for (size_t i = 0; i < COUNT_OF(counts); i++)
            check(luffa_sheet_batch(code, s.sheet, s.sheet_len, s.n, s.marks, s.marks_len, places, counts[i], s.records,
                                    RECORD * (counts[i] - WIDE), s.claim, s.claim_len, s.out, s.out_len)
                              .number == LUFFA_SET &&
                      memcmp(&s, &copy, sizeof s) == 0,
                  "a batch of 2^32 + %zu changes at code %zu", counts[i] - WIDE, code);
    }
    munmap(places, bytes);
}

/* A list of as many entries as would be too few once they are cut; and a wide code, count or claim, by which the struck
   record stays. */
static void close_ups(void)
{
    enum { N = 9, STRUCK = 2 };
    static struct sheet s, copy;
    size_t bytes = 2 * WIDE + 65536;
    uint16_t *places = (void *)map(bytes);
    uint8_t *claim = map(WIDE + 65536);
    const struct {
        size_t code, n, claim_len;
        uint64_t number;
    } wide[] = {
        {WIDE, 0, 0, LUFFA_WIDTH},
        {0, WIDE, 0, LUFFA_SHEET},
        {0, WIDE << 29, 0, LUFFA_SHEET},
        {0, 0, WIDE, LUFFA_CLAIM},
    };

    for (size_t code = 1; code <= 4; code++) {
        any_sheet(&s, code, N, 0);
        strike(&s, STRUCK);
        sheet_call(LUFFA_DONE, BUILD, &s);
        memcpy(claim, s.claim, sizeof s.claim);
        for (size_t i = 0; i < COUNT_OF(wide); i++) {
            copy = s;
            check(luffa_sheet_close_up(wide[i].code + code, s.sheet, s.sheet_len, wide[i].n + N, s.marks, s.marks_len,
                                       claim, wide[i].claim_len + s.claim_len, places, WIDE, s.out, s.out_len)
                              .number == wide[i].number &&
                      memcmp(&s, &copy, sizeof s) == 0 && places[0] == 0 && places[1] == 0,
                  "close up with a wide number at code %zu: not refused %u", code, (unsigned)wide[i].number);
        }
        for (size_t more = 0; more < N; more++) {
            copy = s;
            check(luffa_sheet_close_up(code, copy.sheet, copy.sheet_len, N, copy.marks, copy.marks_len, s.claim,
                                       s.claim_len, places, WIDE + more, copy.out, copy.out_len)
                              .count == N - 1 &&
                      places[STRUCK] == STRUCK + 1 && places[N - 2] == N - 1 && places[N - 1] == 0 && places[WIDE] == 0,
                  "close up with a list of 2^32 + %zu entries at code %zu", more, code);
            memset(places, 0, 2 * N);
        }
    }
    munmap(places, bytes);
    munmap(claim, WIDE + 65536);
}

/* The three saves with these own marks answer the same and leave the sheet as it is. */
static void own_saves(struct sheet *s, uint64_t want, size_t own_n, const uint32_t *own, size_t own_len)
{
    static struct sheet copy;

    copy = *s;
    check(luffa_sheet_change_own(s->code, s->sheet, s->sheet_len, s->n, s->marks, s->marks_len, s->place, s->record,
                                 RECORD, s->claim, s->claim_len, own_n, own, own_len, s->out, s->out_len)
                      .number == want &&
              luffa_sheet_append_own(s->code, s->sheet, s->sheet_len, s->n, s->marks, s->marks_len, s->record, RECORD,
                                     s->claim, s->claim_len, own_n, own, own_len, s->out, s->out_len)
                      .number == want &&
              luffa_sheet_drop_own(s->code, s->sheet, s->sheet_len, s->n, s->marks, s->marks_len, s->claim,
                                   s->claim_len, own_n, own, own_len, s->out, s->out_len)
                      .number == want &&
              memcmp(s, &copy, sizeof copy) == 0,
          "saves with marks of %zu own records in %zu words at code %zu", own_n, own_len, s->code);
}

/* Own marks in wide buffers. As many records as are few once they are cut, or whose marks need few words once the
   product is; and a length that is too short once it is cut. */
static void owns(void)
{
    enum { N = 9 };
    static struct sheet s;
    size_t bytes = 4 * WIDE + 65536;
    uint32_t *own = (void *)map(bytes);
    const size_t many[] = {
        WIDE,       WIDE + N,   WIDE + MOST,      4 * WIDE,         WIDE << 29,   (WIDE << 29) + N,
        WIDE << 30, WIDE << 31, (WIDE << 31) - 4, (WIDE << 31) - 1, SIZE_MAX - 3, SIZE_MAX,
    };
    const size_t lens[] = {WIDE, WIDE + 1, WIDE + MARK - 1, WIDE + LUFFA_MARKS_FOR(N) - 1};

    for (size_t code = 1; code <= 4; code++) {
        built_sheet(&s, code, N, 1);
        memcpy(own, s.marks, 4 * LUFFA_MARKS_FOR(N));
        for (int wrong = 0; wrong < 2; wrong++, s.claim[0] ^= 1)
            for (size_t i = 0; i < COUNT_OF(many); i++)
                own_saves(&s, LUFFA_OWN, many[i], own, WIDE);
        s.claim[0] ^= 1;
        for (size_t i = 0; i < COUNT_OF(lens); i++)
            own_saves(&s, LUFFA_STALE_TAIL, N, own, lens[i]);
        own[MARK] ^= 1;
        for (size_t i = 0; i < COUNT_OF(lens); i++)
            own_saves(&s, LUFFA_STALE, N, own, lens[i]);
        s.code += WIDE;
        own_saves(&s, LUFFA_WIDTH, N, own, WIDE);
        s.code -= WIDE;
        s.n += WIDE;
        own_saves(&s, LUFFA_SHEET, N, own, WIDE);
        memset(own, 0, 4 * LUFFA_MARKS_FOR(N));
    }
    munmap(own, bytes);
}

/* So many words were written to the beginning of the mapped bytes, and nothing after them; they are cleared. */
static void written(struct luffa_output_answer got, uint8_t *mapped, const uint8_t *output, size_t words,
                    const char *call, size_t code)
{
    check(got.number == LUFFA_DONE && got.rounds == (words + 7) / 8 && holds(mapped, output, 4 * words),
          "%s of %zu words into a wide buffer at code %zu", call, words, code);
    memset(mapped, 0, 4 * words);
}

/* Words in a wide buffer; and a wide number of words, though there is room for them, or a wide record. */
static void outputs(uint8_t *mapped, uint8_t *vast, size_t code)
{
    uint8_t record[LUFFA_RECORD_BYTES], output[OUTPUT], of_record[OUTPUT];
    size_t room = 4 * WIDE + 65536;

    any_record(record, code, 40);
    struct luffa_hash hash = in_struct(record);
    output_bits_call(LUFFA_DONE, code, MOST_WORDS, record, sizeof record, 0, OUTPUT, output);
    finish_output_call(LUFFA_DONE, record, sizeof record, MOST_WORDS, OUTPUT, of_record);
    for (size_t words = 1; words <= MOST_WORDS; words += 21) {
        written(luffa_output(code, words, record, sizeof record, mapped, WIDE), mapped, output, words, "output", code);
        written(luffa_output_bits(code, words, record, sizeof record, 0, mapped, WIDE + 3), mapped, output, words,
                "output of bits", code);
        written(luffa_finish_output(record, sizeof record, words, mapped, WIDE), mapped, of_record, words,
                "finish", code);
        written(luffa_hash_finish_output(&hash, words, mapped, WIDE + 3), mapped, of_record, words,
                "finish of a struct", code);
        check(luffa_output(code, WIDE + words, record, sizeof record, vast, room).number == LUFFA_WORDS &&
                  luffa_output_bits(code, WIDE + words, record, 9, 3, vast, room).number == LUFFA_WORDS &&
                  luffa_finish_output(record, sizeof record, WIDE + words, vast, room).number == LUFFA_WORDS &&
                  luffa_hash_finish_output(&hash, WIDE + words, vast, room).number == LUFFA_WORDS,
              "2^32 + %zu words at code %zu", words, code);
        memcpy(mapped, record, sizeof record);
        check(luffa_finish_output(mapped, WIDE + LUFFA_RECORD_BYTES, words, vast, WIDE).number == LUFFA_RECORD,
              "%zu words of a wide record at code %zu", words, code);
        memset(mapped, 0, sizeof record);
        /* Nor is a message of 2^32 bytes read before it is refused. */
        check(luffa_output(code, 0, mapped, WIDE, vast, WIDE).number == LUFFA_WORDS &&
                  luffa_output(code, words, mapped, WIDE, vast, 4 * words - 1).number == LUFFA_OUT &&
                  luffa_output_bits(code, words, mapped, WIDE, WIDE + 1, vast, 4 * words).number == LUFFA_ODD,
              "%zu words of a wide message at code %zu", words, code);
    }
    check(holds(mapped, record, 0) && holds(vast, record, 0), "words at code %zu refused, and something written", code);
}

/* A record of 2^32 + 216 bytes isn't one, and a block of 2^32 + 32 isn't one of 32, nor one of 2^32 none. */
static void backs(uint8_t *mapped, size_t code)
{
    static const size_t lens[] = {0, 1, BLOCK - 1, BLOCK, BLOCK + 1};
    uint8_t record[LUFFA_RECORD_BYTES], copy[LUFFA_RECORD_BYTES];

    any_record(record, code, 64);
    memcpy(copy, record, sizeof copy);
    for (size_t i = 0; i < COUNT_OF(lens); i++)
        check(luffa_back(record, sizeof record, mapped, WIDE + lens[i]) == LUFFA_BACK &&
                  memcmp(record, copy, sizeof copy) == 0,
              "back over 2^32 + %zu bytes at code %zu", lens[i], code);
    memcpy(mapped, record, sizeof record);
    check(luffa_back(mapped, WIDE + LUFFA_RECORD_BYTES, record, BLOCK) == LUFFA_RECORD &&
              holds(mapped, record, sizeof record),
          "back from a wide record at code %zu", code);
    memset(mapped, 0, sizeof record);
}

/* A dump of 2^32 bytes more than a state's isn't one, nor are so many words or bytes more a state or a message block;
   and a code of 2^32 more is none, whatever it is given. */
static void columns(uint8_t *mapped, uint32_t *vast, size_t code)
{
    size_t bytes = state_bytes[code], n = bytes / 4;
    uint8_t dump[160], copy[160];
    uint32_t words[40], copied[40];

    fill(dump, sizeof dump);
    fill((uint8_t *)words, sizeof words);
    memcpy(copy, dump, sizeof copy);
    memcpy(copied, words, sizeof copied);
    check(luffa_columns_from_words(code, vast, WIDE + n, dump, bytes) == LUFFA_COLUMNS &&
              luffa_columns_from_words(code, words, n, mapped, WIDE + bytes) == LUFFA_COLUMNS &&
              luffa_columns_from_words(WIDE + code, words, n, dump, bytes) == LUFFA_WIDTH,
          "columns from words with a wide number at code %zu", code);
    check(luffa_words_from_columns(code, mapped, WIDE + bytes, words, n) == LUFFA_COLUMNS &&
              luffa_words_from_columns(code, dump, bytes, vast, WIDE + n) == LUFFA_COLUMNS &&
              luffa_words_from_columns(WIDE + code, dump, bytes, words, n) == LUFFA_WIDTH,
          "words from columns with a wide number at code %zu", code);
    check(luffa_columns_from_message(mapped, WIDE + BLOCK, dump, BLOCK) == LUFFA_COLUMNS &&
              luffa_columns_from_message(dump, BLOCK, mapped, WIDE + BLOCK) == LUFFA_COLUMNS,
          "columns from a message with a wide length");
    check(luffa_columns_inject(code, mapped, WIDE + bytes, dump, BLOCK) == LUFFA_COLUMNS &&
              luffa_columns_inject(code, dump, bytes, mapped, WIDE + BLOCK) == LUFFA_COLUMNS &&
              luffa_columns_inject(WIDE + code, dump, bytes, mapped, BLOCK) == LUFFA_WIDTH,
          "injection with a wide number at code %zu", code);
    check(memcmp(dump, copy, sizeof copy) == 0 && memcmp(words, copied, sizeof copied) == 0 && holds(mapped, dump, 0) &&
              holds((uint8_t *)vast, dump, 0),
          "columns at code %zu refused, and something written", code);
}

int main(void)
{
    uint8_t record[LUFFA_RECORD_BYTES], digest[LUFFA_512_BYTES];
    uint8_t *mapped = map(WIDE + 65536), *out = map(WIDE + 65536);

    brine(mapped);
    reach(mapped, out);
    batches();
    close_ups();
    owns();
    uint32_t *marks = (void *)map(4 * WIDE + 65536);
    for (size_t code = 1; code <= 4; code++) {
        /* A record buffer of 2^32 + 216 bytes isn't one of 216. */
        any_record(record, code, 40);
        check(luffa_start(code, mapped, WIDE + LUFFA_RECORD_BYTES) == LUFFA_RECORD && holds(mapped, record, 0),
              "start in a wide buffer at code %zu", code);
        memcpy(mapped, record, sizeof record);
        check(luffa_feed(mapped, WIDE + LUFFA_RECORD_BYTES, record, 1) == LUFFA_RECORD &&
                  holds(mapped, record, sizeof record),
              "feed to a wide record at code %zu", code);
        check(luffa_finish(mapped, WIDE + LUFFA_RECORD_BYTES, digest, sizeof digest) == LUFFA_RECORD,
              "finish of a wide record at code %zu", code);
        memset(mapped, 0, sizeof record);
        backs(mapped, code);

        /* An output buffer of 2^32 bytes isn't one of none. */
        digest_call(LUFFA_DONE, code, record, sizeof record, sizeof digest, digest);
        check(luffa_digest(code, record, sizeof record, mapped, WIDE) == LUFFA_DONE &&
                  holds(mapped, digest, digest_bytes[code]),
              "digest into a wide buffer at code %zu", code);
        memset(mapped, 0, sizeof digest);
        finish_call(LUFFA_DONE, record, sizeof record, sizeof digest, digest);
        check(luffa_finish(record, sizeof record, mapped, WIDE) == LUFFA_DONE &&
                  holds(mapped, digest, digest_bytes[code]),
              "finish into a wide buffer at code %zu", code);
        memset(mapped, 0, sizeof digest);

        /* A piece of 2^32 bytes isn't an empty one, nor is one of 2^32 + 1 a byte. */
        for (size_t left = 0; left < 40; left++) {
            uint8_t copy[LUFFA_RECORD_BYTES];
            any_record(record, code, most_bytes(code) - left);
            memcpy(copy, record, sizeof copy);
            for (size_t n = WIDE; n <= WIDE + left; n++)
                check(luffa_feed(record, sizeof record, mapped, n) == LUFFA_LONG &&
                          luffa_feed_bits(record, sizeof record, mapped, n, MOST_ODD) == LUFFA_LONG &&
                          memcmp(record, copy, sizeof copy) == 0,
                      "feed of a wide piece at code %zu with room for %zu bytes", code, left);
        }

        outputs(mapped, (uint8_t *)marks, code);
        columns(mapped, marks, code);
        sheets(mapped, marks, out, code);
    }
    return 0;
}
