/* What the C tests share. A test makes each call through a function below, which lends it buffers
   that stand against pages nobody may touch, and then judges the number answered and every byte
   lent, refused or done. */
#ifndef TEST_H
#define TEST_H

#include <luffa.h>
#include <stdio.h>
#include <stdlib.h>
#include <string.h>

#define COUNT_OF(array) (sizeof(array) / sizeof *(array))

/* Ends the program with status 1 and the words given, unless the condition holds. */
void check(int holds, const char *words, ...) __attribute__((format(printf, 2, 3)));

/* n bytes, the same in every run. */
void fill(uint8_t *bytes, size_t n);

/* By code: bytes of the digest, and of the state words that the code uses. */
extern const size_t digest_bytes[5], state_bytes[5];

/* Codes that aren't 1 to 4, among them such as are once they are cut to 8, 16 or 32 bits. */
extern const size_t no_code[18];

/* Where the record's fields begin (Q-7 in document 02). */
enum { STATE = 8, PENDING = 168, COUNT = 200 };

enum { BLOCK = LUFFA_BLOCK_BYTES };

/* The most odd bits, and numbers that are over it, some of them not once they are cut. */
enum { MOST_ODD = 7 };
extern const size_t no_odd[10];

/* The most words of output and their bytes, and numbers of words that are 0 or over it: some are few once they
   are cut, and some need few bytes once the product is. */
enum { MOST_WORDS = LUFFA_WORDS_MOST, OUTPUT = 4 * MOST_WORDS };
extern const size_t no_words[20];

/* A count has more bits than C's own numbers. */
__extension__ typedef unsigned __int128 bytes_fed;
#define TWO_TO(bits) ((bytes_fed)1 << (bits))

bytes_fed count_of(const uint8_t *record);
void set_count(uint8_t *record, bytes_fed count);

/* The most whole bytes of a message at a code: Table 1's bits, by 8. */
bytes_fed most_bytes(size_t code);

/* The bits of a byte of which the message has the `odd` highest, without the others. */
uint8_t odd_byte(uint8_t byte, size_t odd);

/* A well-formed record of this count and these odd bits, with any state words and any pending bits. */
void any_odd_record(uint8_t *record, size_t code, bytes_fed count, size_t odd);
void any_record(uint8_t *record, size_t code, bytes_fed count);

/* What a record holds, as a struct. */
struct luffa_hash in_struct(const uint8_t *record);

/* The calls. `want` is the number that must be answered. Where there are no odd bits, the library's call
   with `_bits` in its name is made and the other too, and both must leave the same. */

/* Where done, `digest` gets the digest; it may be null. */
void digest_bits_call(uint32_t want, size_t code, const uint8_t *message, size_t message_len, size_t odd,
                      size_t out_len, uint8_t *digest);
void digest_call(uint32_t want, size_t code, const uint8_t *message, size_t message_len, size_t out_len,
                 uint8_t *digest);

/* Where done, all of the record but its state words is judged, and `record` gets it. */
void start_call(uint32_t want, size_t code, size_t record_len, uint8_t *record);

/* Where done, all of the record but its state words is judged, and these too where no block was
   filled; then `record` gets it. */
void feed_bits_call(uint32_t want, uint8_t *record, size_t record_len, const uint8_t *piece, size_t piece_len,
                    size_t odd);
void feed_call(uint32_t want, uint8_t *record, size_t record_len, const uint8_t *piece, size_t piece_len);

/* Where done, all of the record is judged: its state words by a feed of the same block, which must lead back to the
   record that was lent. Then `record` gets it. In one call of 256 the block can't be written, nor can the record where
   the call is refused. */
void back_call(uint32_t want, uint8_t *record, size_t record_len, const uint8_t *block, size_t block_len);

/* Where done, `digest` gets the digest; it may be null. */
void finish_call(uint32_t want, const uint8_t *record, size_t record_len, size_t out_len, uint8_t *digest);

/* The calls over a struct, which is lent as a copy and got back. Where done, the digest is written to
   `digest`; it may be null. */
void hash_start_call(uint32_t want, size_t code, struct luffa_hash *hash);
void hash_feed_bits_call(uint32_t want, struct luffa_hash *hash, const uint8_t *piece, size_t piece_len, size_t odd);
void hash_feed_call(uint32_t want, struct luffa_hash *hash, const uint8_t *piece, size_t piece_len);
void hash_finish_call(uint32_t want, const struct luffa_hash *hash, size_t out_len, uint8_t *digest);

/* The calls for so many words of output. Where done, the rounds must be the words by eight, rounded up, and
   `output` gets the words; it may be null. Refused, the rounds must be 0. */
void output_bits_call(uint64_t want, size_t code, size_t words, const uint8_t *message, size_t message_len, size_t odd,
                      size_t out_len, uint8_t *output);
void finish_output_call(uint64_t want, const uint8_t *record, size_t record_len, size_t words, size_t out_len,
                        uint8_t *output);
void hash_finish_output_call(uint64_t want, const struct luffa_hash *hash, size_t words, size_t out_len,
                             uint8_t *output);

/* The source's 3.3 and 5 by hand, from a record of whole blocks whose last is the padding's: for each eight
   words a block of zeros is fed, after which the blocks of the state are added up. */
void blank_rounds(uint8_t *record, size_t words, uint8_t *output);

/* Its 3.1 by hand too, of a message of less than 96 bytes: the bits, a 1 and zeros are fed as whole blocks. */
void by_hand(size_t code, const uint8_t *message, size_t bits, size_t words, uint8_t *output);

/* ---- States by columns. */

/* The calls on columns. Where done, what was written is got in `dump` or `words`. In one call of 256 what is only read
   can't be written, nor can anything where the call is refused. */
void columns_from_words_call(uint32_t want, size_t code, const uint32_t *words, size_t words_len, size_t dump_len,
                             uint8_t *dump);
void words_from_columns_call(uint32_t want, size_t code, const uint8_t *dump, size_t dump_len, size_t words_len,
                             uint32_t *words);
void columns_from_message_call(uint32_t want, const uint8_t *block, size_t block_len, size_t dump_len, uint8_t *dump);
void columns_inject_call(uint32_t want, size_t code, uint8_t *dump, size_t dump_len, const uint8_t *message,
                         size_t message_len);

/* ---- Sheets. */

enum call { BUILD, CHANGE, APPEND, DROP, BATCH, CLOSE_UP, CHANGE_OWN, APPEND_OWN, DROP_OWN };
extern const char *const call_names[9];

/* Whether a call brings own marks, and the same call without. */
int brings_own(enum call call);
enum call plain(enum call call);

enum { RECORD = LUFFA_SHEET_RECORD_BYTES, MARK = LUFFA_MARK_WORDS, MOST = LUFFA_SHEET_MOST, ROOM_FOR = MOST + 6 };

/* The most changes of a batch, and more places than that. */
enum { CHANGES = LUFFA_CHANGES_MOST, PLACES = 264 };

/* Numbers of records that no sheet has, among them such as are few once they are cut to 32 bits, and
   such as need few bytes or words once the product is cut to 64. */
extern const size_t too_many[15];

/* A sheet, and all that a call on it is given: a change its place and record, a batch its places and records, a close
   up the list that gets the old places, and with `_own` the planner's own count and marks. Of marks and of own so many
   words at the end are hidden: they are lent, but nobody may touch them. */
struct sheet {
    size_t code, n, place, own_n;
    size_t sheet_len, marks_len, record_len, claim_len, out_len, own_len, old_len;
    size_t marks_hidden, own_hidden;
    size_t places_len, records_len, places[PLACES];
    uint8_t sheet[RECORD * ROOM_FOR];
    uint32_t marks[LUFFA_MARKS_FOR(ROOM_FOR)], own[LUFFA_MARKS_FOR(ROOM_FOR)];
    uint8_t record[100], claim[100], out[200], records[RECORD * PLACES];
    uint16_t old[ROOM_FOR];
};

/* n records of any bytes, with room for `more`, and no byte or word beyond that is lent. The marks
   are any words, as are the entries of the list; the record is any, and the output buffer has a few
   bytes too many. The batch is of three changes, or as many as there are records. No own marks are lent. */
void any_sheet(struct sheet *s, size_t code, size_t n, size_t more);

/* A batch of so many changes, the first at this place and each so many places after the one before, with
   records just long enough. */
void batch_of(struct sheet *s, size_t count, size_t first, size_t step);

/* The same, built, the digest claimed, and opened. */
void built_sheet(struct sheet *s, size_t code, size_t n, size_t more);

/* Strikes the record at a place. The marks are those from before, until they are built. */
void strike(struct sheet *s, size_t place);

/* The planner opens the sheet: its count and marks are now his own, in a buffer just long enough. */
void open_own(struct sheet *s);

/* F, the rounds of the final stage; and the rounds from mark m to the end, blocks that are left and F. */
extern const size_t final_rounds[5];
uint64_t rounds_from(const struct sheet *s, size_t m);

/* The digest that the steps give over n records from mark m as it is found: of a record with its words. */
void from_mark(const struct sheet *s, size_t m, size_t n, uint8_t *digest);

/* Makes every mark of this set any words. */
void falsify(struct sheet *s, unsigned set);

/* Writes the marks after mark m that the steps give from it as it is found. */
void marks_from(struct sheet *s, size_t m);

/* What a close up must leave of records, count and list, and of the marks past the new last one. Gives the mark that
   its work starts from. */
size_t closed_up(struct sheet *s);

/* Makes a call on a sheet whose marks are true. Where done, everything is judged by luffa_digest and
   luffa_feed over the whole sheet, and by document 01's formulas for rounds; refused, nothing may
   have changed. The empty set is saved where neither sheet nor marks can be written, and what the list of
   a close up has behind n entries can't be touched in every other call. Where a stale save
   differs from the planner's own marks is judged over all that both sheets have. Then `s` is what the call
   left, with the new count, and the claim is the new digest. */
struct luffa_sheet_answer sheet_call(uint64_t want, enum call call, struct sheet *s);

/* The same with the whole answer, in which a call without own marks has 0 for what it doesn't say. */
struct luffa_sheet_where where_call(uint64_t want, enum call call, struct sheet *s);

/* Makes a call on a sheet whatever its marks are: it must be done in so many rounds, and leave the sheet,
   the marks, the list and in out the digest that `after` has. */
void found_call(uint64_t rounds, enum call call, const struct sheet *s, const struct sheet *after);

/* Makes a call with own marks on a sheet whatever its marks are, and the same call without: both must be done, and
   answer and leave the same. */
void as_plain_call(enum call call, const struct sheet *s);

/* Has the marks of a sheet mended, whatever they are. Where done, the answer and the marks are judged by
   luffa_feed over the whole sheet, and neither the sheet nor a page of the marks that has no wrong one in
   it can be written; refused, nothing may have changed, and the answer has the number alone. Then `s` is
   what the call left. */
struct luffa_mend_answer mend_call(uint64_t want, struct sheet *s);

/* ---- What the records of a sheet mean. */

/* A field of a record and its bytes. */
#define NUMBER LUFFA_WELL_NUMBER, 2
#define KIND LUFFA_WELL_KIND, 1
#define LINK_COUNT LUFFA_WELL_LINK_COUNT, 1
#define RATE LUFFA_WELL_RATE, 4
#define INJECTOR(k) LUFFA_LINK_INJECTOR(k), 2
#define SHARE(k) LUFFA_LINK_SHARE(k), 2

/* A field of a sheet's record set to another value. */
struct edit {
    size_t place, at, bytes;
    uint32_t value;
};

/* A number of so many bytes, high byte first. */
void put(uint8_t *sheet, size_t place, size_t at, size_t bytes, uint32_t value);

/* A well without links, its note any bytes; and a link more. */
void put_well(uint8_t *sheet, size_t place, uint32_t kind, uint32_t number, uint32_t rate);
void add_link(uint8_t *sheet, size_t place, uint32_t injector, uint32_t share);

/* A sound sheet, with rates, shares and numbers at the edge of what is allowed, injectors before and
   after. */
enum { WELLS = 9 };
void sound_sheet(uint8_t *sheet);

/* A fault of it for each rule, in their order. All of them leave something sent. */
extern const struct edit faults[8];

/* Puts a struck record before each of n records and one after the last, so that the one at place p stands at 2p + 1. */
#define AMONG_STRUCK(n) (2 * (n) + 1)
void put_among_struck(uint8_t *sheet, size_t n);

/* The check of what the first n records mean, which writes nothing. */
void plan_call(struct luffa_content_answer want, const uint8_t *sheet, size_t sheet_len, size_t n);

enum { SHEETS = LUFFA_BATCH_MOST, RECORDS = SHEETS * MOST + 1 };

/* All that a brine statement is given but the lists, of which there are the lengths, and the figures
   that it must have for each record. */
struct batch {
    size_t sheets_len, counts_len, intake_len, spare_len;
    uint8_t sheets[RECORD * RECORDS];
    size_t counts[300];
    uint64_t intake[RECORDS];
    int64_t spare[RECORDS];
};

/* Has the page drawn up in lists of any numbers. What is written must be the figures, a place of each
   list for each record; refused, nothing may be. */
void brine_call(struct luffa_brine_answer want, const struct batch *b);

/* All that a search for who depends on a well is given but the buffer, of which there is the length. */
struct search {
    const uint8_t *sheet;
    size_t sheet_len, n, well, hops, reached_len;
};

/* Has the records reached marked in a buffer of any bytes. Where done, the first n must be these marks; refused,
   nothing may be written. */
void reach_call(uint32_t want, const struct search *s, const uint8_t *marks);

#endif
