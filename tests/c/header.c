/* The header with nothing before it: its values, the types of its functions, and, as it is compiled
   as C11 and as C++17 and linked with the archive, their C names in both. */
#include <luffa.h>

#ifdef __cplusplus
#define HOLDS(fact) static_assert(fact, #fact)
#else
#define HOLDS(fact) _Static_assert(fact, #fact)
#endif

HOLDS(LUFFA_224 == 1 && LUFFA_256 == 2 && LUFFA_384 == 3 && LUFFA_512 == 4);
HOLDS(LUFFA_224_BYTES == 28 && LUFFA_256_BYTES == 32 && LUFFA_384_BYTES == 48 && LUFFA_512_BYTES == 64);
HOLDS(LUFFA_RECORD_BYTES == 216 && LUFFA_BLOCK_BYTES == 32);
HOLDS(LUFFA_LIMIT == ((uint64_t)1 << 61) - 1);
HOLDS(LUFFA_DONE == 0 && LUFFA_WIDTH == 1 && LUFFA_OUT == 2 && LUFFA_RECORD == 3 && LUFFA_LONG == 4);
HOLDS(LUFFA_SHEET == 5 && LUFFA_MARKS == 6 && LUFFA_PLACE == 7 && LUFFA_FULL == 8 && LUFFA_SIZE == 9);
HOLDS(LUFFA_CLAIM == 10 && LUFFA_STALE == 11 && LUFFA_BATCH == 13 && LUFFA_LIST == 25 && LUFFA_BATCH_MOST == 64);
HOLDS(LUFFA_ODD == 17 && LUFFA_BACK == 18 && LUFFA_WORDS == 12 && LUFFA_WORDS_MOST == 64);
HOLDS(LUFFA_SET == 14 && LUFFA_CHANGES_MOST == 64 && LUFFA_PLACES == 23 && LUFFA_COLUMNS == 24);
HOLDS(LUFFA_OWN == 15 && LUFFA_STALE_TAIL == 16 && LUFFA_WHERE_SAME == 0 && LUFFA_WHERE_GROUP == 1);
HOLDS(LUFFA_HOPS == 19 && LUFFA_UNSOUND == 20 && LUFFA_WELL == 21 && LUFFA_REACH == 22 && LUFFA_HOPS_MOST == 3);
HOLDS(LUFFA_SHEET_MOST == 1024 && LUFFA_SHEET_RECORD_BYTES == 40 && LUFFA_MARK_WORDS == 40);
HOLDS(LUFFA_MARKS_FOR(0) == 40 && LUFFA_MARKS_FOR(3) == 40 && LUFFA_MARKS_FOR(4) == 80);
HOLDS(LUFFA_MARKS_FOR(LUFFA_SHEET_MOST) == 10280 && LUFFA_MARKS_FOR(1 + 2) == 40);
HOLDS(sizeof(struct luffa_sheet_answer) == 24 && offsetof(struct luffa_sheet_answer, number) == 0 &&
      offsetof(struct luffa_sheet_answer, count) == 8 && offsetof(struct luffa_sheet_answer, rounds) == 16);
HOLDS(sizeof(struct luffa_sheet_where) == 48 && offsetof(struct luffa_sheet_where, number) == 0 &&
      offsetof(struct luffa_sheet_where, count) == 8 && offsetof(struct luffa_sheet_where, rounds) == 16 &&
      offsetof(struct luffa_sheet_where, kind) == 24 && offsetof(struct luffa_sheet_where, group) == 32 &&
      offsetof(struct luffa_sheet_where, pairs) == 40);
HOLDS(sizeof(struct luffa_mend_answer) == 32 && offsetof(struct luffa_mend_answer, number) == 0 &&
      offsetof(struct luffa_mend_answer, wrong) == 8 && offsetof(struct luffa_mend_answer, first) == 16 &&
      offsetof(struct luffa_mend_answer, rounds) == 24);
HOLDS(LUFFA_WELL_NUMBER == 0 && LUFFA_WELL_KIND == 2 && LUFFA_WELL_LINK_COUNT == 3 && LUFFA_WELL_RATE == 4);
HOLDS(LUFFA_WELL_LINKS == 8 && LUFFA_WELL_NOTE == 24 && LUFFA_LINKS_MOST == 4);
HOLDS(LUFFA_LINK_INJECTOR(0) == 8 && LUFFA_LINK_SHARE(0) == 10 && LUFFA_LINK_INJECTOR(1 + 2) == 20);
HOLDS(LUFFA_LINK_SHARE(1 + 2) == 22 && 2 * LUFFA_LINK_SHARE(3) == 44);
HOLDS(LUFFA_PRODUCER == 1 && LUFFA_INJECTOR == 2 && LUFFA_RATE_MOST == 100000 && LUFFA_SHARES_TOTAL == 1000);
HOLDS(LUFFA_SOUND == 0 && LUFFA_RULE_NUMBER == 1 && LUFFA_RULE_KIND == 2 && LUFFA_RULE_LINK_COUNT == 3);
HOLDS(LUFFA_RULE_RATE == 4 && LUFFA_RULE_LINKS == 5 && LUFFA_RULE_SHARES == 6 && LUFFA_RULE_UNUSED_LINKS == 7);
HOLDS(LUFFA_RULE_REPEAT == 8);
HOLDS(sizeof(struct luffa_content_answer) == 24 && offsetof(struct luffa_content_answer, number) == 0 &&
      offsetof(struct luffa_content_answer, rule) == 8 && offsetof(struct luffa_content_answer, place) == 16);
HOLDS(sizeof(struct luffa_brine_answer) == 40 && offsetof(struct luffa_brine_answer, number) == 0 &&
      offsetof(struct luffa_brine_answer, sound) == 8 && offsetof(struct luffa_brine_answer, faulted) == 16 &&
      offsetof(struct luffa_brine_answer, intake) == 24 && offsetof(struct luffa_brine_answer, overloaded) == 32);
HOLDS(sizeof(struct luffa_output_answer) == 16 && offsetof(struct luffa_output_answer, number) == 0 &&
      offsetof(struct luffa_output_answer, rounds) == 8);
HOLDS(sizeof(struct luffa_hash) == 224 && offsetof(struct luffa_hash, code) == 0 &&
      offsetof(struct luffa_hash, odd) == 8 && offsetof(struct luffa_hash, state) == 16 &&
      offsetof(struct luffa_hash, pending) == 176 && offsetof(struct luffa_hash, count_high) == 208 &&
      offsetof(struct luffa_hash, count_low) == 216);

static uint32_t (*const digest)(size_t, const uint8_t *, size_t, uint8_t *, size_t) = luffa_digest;
static uint32_t (*const digest_bits)(size_t, const uint8_t *, size_t, size_t, uint8_t *, size_t) = luffa_digest_bits;
static uint32_t (*const start)(size_t, uint8_t *, size_t) = luffa_start;
static uint32_t (*const feed)(uint8_t *, size_t, const uint8_t *, size_t) = luffa_feed;
static uint32_t (*const feed_bits)(uint8_t *, size_t, const uint8_t *, size_t, size_t) = luffa_feed_bits;
static uint32_t (*const back)(uint8_t *, size_t, const uint8_t *, size_t) = luffa_back;
static uint32_t (*const finish)(const uint8_t *, size_t, uint8_t *, size_t) = luffa_finish;
static uint32_t (*const hash_start)(size_t, struct luffa_hash *) = luffa_hash_start;
static uint32_t (*const hash_feed)(struct luffa_hash *, const uint8_t *, size_t) = luffa_hash_feed;
static uint32_t (*const hash_feed_bits)(struct luffa_hash *, const uint8_t *, size_t, size_t) = luffa_hash_feed_bits;
static uint32_t (*const hash_finish)(const struct luffa_hash *, uint8_t *, size_t) = luffa_hash_finish;

typedef struct luffa_output_answer words;
static words (*const output)(size_t, size_t, const uint8_t *, size_t, uint8_t *, size_t) = luffa_output;
static words (*const output_bits)(size_t, size_t, const uint8_t *, size_t, size_t, uint8_t *,
                                  size_t) = luffa_output_bits;
static words (*const finish_output)(const uint8_t *, size_t, size_t, uint8_t *, size_t) = luffa_finish_output;
static words (*const hash_finish_output)(const struct luffa_hash *, size_t, uint8_t *,
                                         size_t) = luffa_hash_finish_output;

static uint32_t (*const columns_from_words)(size_t, const uint32_t *, size_t, uint8_t *,
                                            size_t) = luffa_columns_from_words;
static uint32_t (*const words_from_columns)(size_t, const uint8_t *, size_t, uint32_t *,
                                            size_t) = luffa_words_from_columns;
static uint32_t (*const columns_from_message)(const uint8_t *, size_t, uint8_t *, size_t) = luffa_columns_from_message;
static uint32_t (*const columns_inject)(size_t, uint8_t *, size_t, const uint8_t *, size_t) = luffa_columns_inject;

typedef struct luffa_sheet_answer answer;
static answer (*const build)(size_t, const uint8_t *, size_t, size_t, uint32_t *, size_t, uint8_t *,
                             size_t) = luffa_sheet_build;
static answer (*const change)(size_t, uint8_t *, size_t, size_t, uint32_t *, size_t, size_t, const uint8_t *, size_t,
                              const uint8_t *, size_t, uint8_t *, size_t) = luffa_sheet_change;
static answer (*const append)(size_t, uint8_t *, size_t, size_t, uint32_t *, size_t, const uint8_t *, size_t,
                              const uint8_t *, size_t, uint8_t *, size_t) = luffa_sheet_append;
static answer (*const drop)(size_t, uint8_t *, size_t, size_t, uint32_t *, size_t, const uint8_t *, size_t, uint8_t *,
                            size_t) = luffa_sheet_drop;
static answer (*const batch)(size_t, uint8_t *, size_t, size_t, uint32_t *, size_t, const size_t *, size_t,
                             const uint8_t *, size_t, const uint8_t *, size_t, uint8_t *, size_t) = luffa_sheet_batch;
static answer (*const close_up)(size_t, uint8_t *, size_t, size_t, uint32_t *, size_t, const uint8_t *, size_t,
                                uint16_t *, size_t, uint8_t *, size_t) = luffa_sheet_close_up;
typedef struct luffa_sheet_where where;
static where (*const change_own)(size_t, uint8_t *, size_t, size_t, uint32_t *, size_t, size_t, const uint8_t *, size_t,
                                 const uint8_t *, size_t, size_t, const uint32_t *, size_t, uint8_t *,
                                 size_t) = luffa_sheet_change_own;
static where (*const append_own)(size_t, uint8_t *, size_t, size_t, uint32_t *, size_t, const uint8_t *, size_t,
                                 const uint8_t *, size_t, size_t, const uint32_t *, size_t, uint8_t *,
                                 size_t) = luffa_sheet_append_own;
static where (*const drop_own)(size_t, uint8_t *, size_t, size_t, uint32_t *, size_t, const uint8_t *, size_t, size_t,
                               const uint32_t *, size_t, uint8_t *, size_t) = luffa_sheet_drop_own;
static struct luffa_mend_answer (*const mend)(size_t, const uint8_t *, size_t, size_t, uint32_t *,
                                              size_t) = luffa_sheet_mend;
static struct luffa_content_answer (*const plan_check)(const uint8_t *, size_t, size_t) = luffa_plan_check;
static struct luffa_brine_answer (*const plan_brine)(const uint8_t *, size_t, const size_t *, size_t, uint64_t *,
                                                     size_t, int64_t *, size_t) = luffa_plan_brine;
static uint32_t (*const plan_reach)(const uint8_t *, size_t, size_t, size_t, size_t, uint8_t *,
                                    size_t) = luffa_plan_reach;

int main(void)
{
    uint8_t record[LUFFA_RECORD_BYTES], out[LUFFA_512_BYTES], claim[LUFFA_512_BYTES];
    uint8_t sheet[LUFFA_SHEET_RECORD_BYTES] = {0}, line[LUFFA_SHEET_RECORD_BYTES] = {1};
    uint8_t dump[160], message[LUFFA_BLOCK_BYTES];
    uint32_t marks[LUFFA_MARKS_FOR(1)], own[LUFFA_MARKS_FOR(0)];
    struct luffa_hash hash;
    size_t counts[] = {0, 1};
    uint16_t places[1];
    uint64_t intake[1];
    int64_t spare[1];

    return digest(LUFFA_224, NULL, 0, out, sizeof out) != LUFFA_DONE ||
           digest_bits(LUFFA_224, line, sizeof line, 7, out, sizeof out) != LUFFA_DONE ||
           start(LUFFA_512, record, sizeof record) != LUFFA_DONE ||
           feed(record, sizeof record, NULL, 0) != LUFFA_DONE ||
           back(record, sizeof record, line, LUFFA_BLOCK_BYTES) != LUFFA_BACK ||
           feed_bits(record, sizeof record, line, sizeof line, 7) != LUFFA_DONE ||
           finish(record, sizeof record, out, sizeof out) != LUFFA_DONE ||
           hash_start(LUFFA_512, &hash) != LUFFA_DONE || hash_feed(&hash, NULL, 0) != LUFFA_DONE ||
           hash_feed_bits(&hash, line, sizeof line, 7) != LUFFA_DONE ||
           hash_finish(&hash, out, sizeof out) != LUFFA_DONE ||
           output(LUFFA_224, 16, NULL, 0, out, sizeof out).rounds != 2 ||
           output_bits(LUFFA_224, 1, line, sizeof line, 7, out, sizeof out).rounds != 1 ||
           finish_output(record, sizeof record, LUFFA_WORDS_MOST, out, sizeof out).number != LUFFA_OUT ||
           hash_finish_output(&hash, LUFFA_WORDS_MOST + 1, out, sizeof out).number != LUFFA_WORDS ||
           columns_from_words(LUFFA_512, hash.state, 40, dump, sizeof dump) != LUFFA_DONE ||
           columns_from_message(record, LUFFA_BLOCK_BYTES, message, sizeof message) != LUFFA_DONE ||
           columns_inject(LUFFA_512, dump, sizeof dump, message, sizeof message) != LUFFA_DONE ||
           words_from_columns(LUFFA_512, dump, sizeof dump, hash.state, 39) != LUFFA_COLUMNS ||
           build(LUFFA_512, NULL, 0, 0, marks, LUFFA_MARKS_FOR(0), claim, sizeof claim).rounds != 3 ||
           append(LUFFA_512, sheet, sizeof sheet, 0, marks, LUFFA_MARKS_FOR(0), line, sizeof line, claim, sizeof claim,
                  out, sizeof out).count != 1 ||
           batch(LUFFA_512, sheet, sizeof sheet, 1, marks, LUFFA_MARKS_FOR(1), counts, 1, line, sizeof line, out,
                 sizeof out, claim, sizeof claim).rounds != 8 ||
           change(LUFFA_512, sheet, sizeof sheet, 1, marks, LUFFA_MARKS_FOR(1), 1, line, sizeof line, out, sizeof out,
                  claim, sizeof claim).number != LUFFA_PLACE ||
           drop(LUFFA_512, sheet, sizeof sheet, 1, marks, LUFFA_MARKS_FOR(1), out, sizeof out, claim, sizeof claim)
                   .count != 0 ||
           build(LUFFA_512, NULL, 0, 0, own, LUFFA_MARKS_FOR(0), out, sizeof out).rounds != 3 ||
           append_own(LUFFA_512, sheet, sizeof sheet, 0, marks, LUFFA_MARKS_FOR(0), line, sizeof line, claim,
                      sizeof claim, 0, own, LUFFA_MARKS_FOR(0), out, sizeof out).count != 1 ||
           change_own(LUFFA_512, sheet, sizeof sheet, 1, marks, LUFFA_MARKS_FOR(1), 0, line, sizeof line, claim,
                      sizeof claim, 0, own, LUFFA_MARKS_FOR(0), out, sizeof out).number != LUFFA_STALE_TAIL ||
           drop_own(LUFFA_512, sheet, sizeof sheet, 1, marks, LUFFA_MARKS_FOR(1), out, sizeof out, 0, own,
                    LUFFA_MARKS_FOR(0), claim, sizeof claim).count != 0 ||
           plan_check(sheet, sizeof sheet, 1).rule != LUFFA_SOUND ||
           plan_brine(sheet, sizeof sheet, counts, 2, intake, 1, spare, 1).sound != 2 ||
           plan_reach(sheet, sizeof sheet, 1, 1, LUFFA_HOPS_MOST, out, sizeof out) != LUFFA_WELL ||
           build(LUFFA_512, sheet, sizeof sheet, 1, marks, LUFFA_MARKS_FOR(1), claim, sizeof claim).rounds != 4 ||
           close_up(LUFFA_512, sheet, sizeof sheet, 1, marks, LUFFA_MARKS_FOR(1), claim, sizeof claim, places, 1, out,
                    sizeof out).rounds != 7 ||
           mend(LUFFA_384, NULL, 0, 0, marks, LUFFA_MARKS_FOR(0)).wrong != 1;
}
