/* Stepping back over a block: forward then back and back then forward, of records that messages lead to and of any
   others, blocks fed where bytes are pending, other blocks than the one fed, the counts at which it borrows, a logger
   that sends a block again, and what is refused 18. That 3 comes before it is in malformed.c too. */
#include "test.h"

static void same(const uint8_t *record, const uint8_t *wanted, const char *what)
{
    check(memcmp(record, wanted, LUFFA_RECORD_BYTES) == 0, "%s, at code %u: not the record after %llu", what, wanted[0],
          (unsigned long long)count_of(wanted));
}

/* ---- There and back. */

/* From a record of this count, whatever its state: back then forward, and forward then back. */
static void both_ways(size_t code, bytes_fed count)
{
    uint8_t first[LUFFA_RECORD_BYTES], record[LUFFA_RECORD_BYTES], block[BLOCK];

    any_record(first, code, count);
    fill(block, sizeof block);
    memcpy(record, first, sizeof record);
    if (count >= BLOCK) {
        back_call(LUFFA_DONE, record, sizeof record, block, BLOCK);
        feed_call(LUFFA_DONE, record, sizeof record, block, BLOCK);
        same(record, first, "back then forward");
    }
    if (count > most_bytes(code) - BLOCK) {
        feed_call(LUFFA_LONG, record, sizeof record, block, BLOCK);
        same(record, first, "a feed past the limit");
        return;
    }
    feed_call(LUFFA_DONE, record, sizeof record, block, BLOCK);
    back_call(LUFFA_DONE, record, sizeof record, block, BLOCK);
    same(record, first, "forward then back");
}

/* Every count of whole blocks to some, those where a byte of the count or a half of it is borrowed from, any others,
   and the highest, to which no block can be fed. */
static void counts(size_t code)
{
    uint8_t any[LUFFA_RECORD_BYTES];

    for (bytes_fed count = 0; count <= 40 * BLOCK; count += BLOCK)
        both_ways(code, count);
    for (int bit = 6; TWO_TO(bit) <= most_bytes(code); bit++) {
        both_ways(code, TWO_TO(bit) - BLOCK);
        both_ways(code, TWO_TO(bit));
        both_ways(code, TWO_TO(bit) + BLOCK);
    }
    for (int times = 0; times < 300; times++) {
        fill(any, sizeof any);
        both_ways(code, count_of(any) % (most_bytes(code) + 1) / BLOCK * BLOCK);
    }
    both_ways(code, most_bytes(code) - (2 * BLOCK - 1));
    both_ways(code, most_bytes(code) - (BLOCK - 1));
}

/* With bytes pending a block can be fed, but not taken back: it isn't the last one then. */
static void still_pending(size_t code)
{
    uint8_t record[LUFFA_RECORD_BYTES], block[BLOCK];

    fill(block, sizeof block);
    for (bytes_fed pending = 1; pending < BLOCK; pending++) {
        any_record(record, code, BLOCK + pending);
        feed_call(LUFFA_DONE, record, sizeof record, block, BLOCK);
        back_call(LUFFA_BACK, record, sizeof record, block, BLOCK);
    }
}

/* States of one bit, at its place in each word that is used, and the state of zeros; likewise blocks. */
static void single_bits(size_t code)
{
    uint8_t record[LUFFA_RECORD_BYTES], block[BLOCK] = {0};

    for (size_t bit = 0; bit <= 8 * state_bytes[code]; bit++) {
        any_record(record, code, 64);
        memset(record + STATE, 0, state_bytes[code]);
        if (bit < 8 * state_bytes[code])
            record[STATE + bit / 8] = (uint8_t)(1 << bit % 8);
        back_call(LUFFA_DONE, record, sizeof record, block, BLOCK);
    }
    for (size_t bit = 0; bit < 8 * BLOCK; bit++) {
        any_record(record, code, 64);
        block[bit / 8] = (uint8_t)(1 << bit % 8);
        back_call(LUFFA_DONE, record, sizeof record, block, BLOCK);
        block[bit / 8] = 0;
    }
}

/* ---- The beginning. */

/* A block fed to a started record is taken back to that. From any other state of count 32 it is done too, and the
   record that is left has count 0 and other variables than the starting ones. */
static void first_block(size_t code)
{
    uint8_t started[LUFFA_RECORD_BYTES], record[LUFFA_RECORD_BYTES], block[BLOCK];

    start_call(LUFFA_DONE, code, sizeof started, started);
    fill(block, sizeof block);
    memcpy(record, started, sizeof record);
    feed_call(LUFFA_DONE, record, sizeof record, block, BLOCK);
    for (size_t bit = 0; bit < 8 * state_bytes[code]; bit++) {
        uint8_t other[LUFFA_RECORD_BYTES];
        memcpy(other, record, sizeof other);
        other[STATE + bit / 8] ^= (uint8_t)(1 << bit % 8);
        back_call(LUFFA_DONE, other, sizeof other, block, BLOCK);
        check(memcmp(other, started, sizeof other) != 0, "code %zu: bit %zu of the state doesn't matter", code, bit);
        back_call(LUFFA_BACK, other, sizeof other, block, BLOCK);
    }
    back_call(LUFFA_DONE, record, sizeof record, block, BLOCK);
    same(record, started, "the first block taken back");
    back_call(LUFFA_BACK, record, sizeof record, block, BLOCK);
}

/* Ten blocks fed and taken back, the last first: every record on the way, and at the end the started one. */
static void chain(size_t code)
{
    enum { BLOCKS = 10 };
    uint8_t record[LUFFA_RECORD_BYTES], was[BLOCKS][LUFFA_RECORD_BYTES], message[BLOCKS * BLOCK];

    fill(message, sizeof message);
    start_call(LUFFA_DONE, code, sizeof record, record);
    for (size_t i = 0; i < BLOCKS; i++) {
        memcpy(was[i], record, sizeof record);
        feed_call(LUFFA_DONE, record, sizeof record, message + BLOCK * i, BLOCK);
    }
    for (size_t i = BLOCKS; i-- > 0;) {
        back_call(LUFFA_DONE, record, sizeof record, message + BLOCK * i, BLOCK);
        same(record, was[i], "one of ten blocks taken back");
    }
}

/* ---- Other blocks. */

/* A block that isn't the one fed, by one bit or by many, leads to another record; this can be fed, finished and stepped
   back from, and the same block leads forward again. */
static void other_blocks(size_t code)
{
    uint8_t earlier[LUFFA_RECORD_BYTES], fed[LUFFA_RECORD_BYTES], record[LUFFA_RECORD_BYTES];
    uint8_t block[BLOCK], other[BLOCK];

    any_record(earlier, code, 320);
    memcpy(fed, earlier, sizeof fed);
    fill(block, sizeof block);
    feed_call(LUFFA_DONE, fed, sizeof fed, block, BLOCK);
    for (size_t bit = 0; bit < 8 * BLOCK + 64; bit++) {
        memcpy(other, block, sizeof other);
        if (bit < 8 * BLOCK)
            other[bit / 8] ^= (uint8_t)(1 << bit % 8);
        else
            fill(other, sizeof other);
        memcpy(record, fed, sizeof record);
        back_call(LUFFA_DONE, record, sizeof record, other, BLOCK);
        check(memcmp(record + STATE, earlier + STATE, state_bytes[code]) != 0,
              "code %zu: another block leads to the earlier record", code);
        finish_call(LUFFA_DONE, record, sizeof record, LUFFA_512_BYTES, NULL);
        feed_call(LUFFA_DONE, record, sizeof record, other, BLOCK);
        same(record, fed, "another block back and forward");
        back_call(LUFFA_DONE, record, sizeof record, block, BLOCK);
        same(record, earlier, "the block itself, after another,");
        back_call(LUFFA_DONE, record, sizeof record, other, BLOCK);
    }
}

/* ---- A logger sends a block again. */

/* However the message was cut, its last 32 bytes are the block: the right ones are fed in its place, and what follows.
   The digest, and the longer output, is that of the mended message. */
static void resent(size_t code, size_t blocks, size_t cut)
{
    enum { MOST_BYTES = 6 * BLOCK + 20 };
    uint8_t record[LUFFA_RECORD_BYTES], garbled[BLOCK], message[MOST_BYTES], digest[LUFFA_512_BYTES];
    uint8_t wanted[LUFFA_512_BYTES], output[OUTPUT], wanted_output[OUTPUT];
    size_t last = BLOCK * (blocks - 1), end = BLOCK * blocks, all = end + 20;

    fill(message, all);
    fill(garbled, sizeof garbled);
    start_call(LUFFA_DONE, code, sizeof record, record);
    feed_call(LUFFA_DONE, record, sizeof record, message, last);
    feed_call(LUFFA_DONE, record, sizeof record, garbled, cut);
    feed_call(LUFFA_DONE, record, sizeof record, garbled + cut, BLOCK - cut);
    back_call(LUFFA_DONE, record, sizeof record, garbled, BLOCK);
    feed_call(LUFFA_DONE, record, sizeof record, message + last, BLOCK);
    digest_call(LUFFA_DONE, code, message, end, sizeof wanted, wanted);
    finish_call(LUFFA_DONE, record, sizeof record, sizeof digest, digest);
    check(memcmp(digest, wanted, digest_bytes[code]) == 0, "%zu blocks at code %zu, the last mended", blocks, code);
    feed_call(LUFFA_DONE, record, sizeof record, message + end, all - end);
    back_call(LUFFA_BACK, record, sizeof record, message + last, BLOCK);
    output_bits_call(LUFFA_DONE, code, MOST_WORDS, message, all, 0, sizeof wanted_output, wanted_output);
    finish_output_call(LUFFA_DONE, record, sizeof record, MOST_WORDS, sizeof output, output);
    check(memcmp(output, wanted_output, sizeof output) == 0, "%zu blocks mended and %zu bytes at code %zu", blocks,
          all - end, code);
}

/* ---- Refusals. */

/* The answer for a well-formed record, by document 02's four conditions. */
static uint32_t number(bytes_fed count, size_t odd, size_t block_len)
{
    return count % BLOCK == 0 && odd == 0 && count >= BLOCK && block_len == BLOCK ? LUFFA_DONE : LUFFA_BACK;
}

/* Each of the conditions missing alone and with every other: pending bytes, be they zeros, odd bits, too low a count
   and blocks of another length. */
static void conditions(size_t code, bytes_fed count)
{
    static const size_t lens[] = {0, 1, 16, 31, 32, 33, 63, 64};
    uint8_t record[LUFFA_RECORD_BYTES], block[64];

    fill(block, sizeof block);
    for (size_t odd = 0; odd <= MOST_ODD; odd++)
        for (size_t i = 0; i < COUNT_OF(lens); i++) {
            uint32_t want = number(count, odd, lens[i]);
            any_odd_record(record, code, count, odd);
            back_call(want, record, sizeof record, block, lens[i]);
            any_odd_record(record, code, count, odd);
            memset(record + PENDING, 0, BLOCK);
            back_call(want, record, sizeof record, block, lens[i]);
        }
}

/* Blocks of every length to some, from a record that takes one and from others. */
static void lengths(size_t code)
{
    static const bytes_fed counts_held[] = {0, 31, 32, 33, 64, TWO_TO(32), TWO_TO(61) - 32};
    uint8_t record[LUFFA_RECORD_BYTES], block[4 * BLOCK];

    fill(block, sizeof block);
    for (size_t i = 0; i < COUNT_OF(counts_held); i++)
        for (size_t block_len = 0; block_len <= sizeof block; block_len++) {
            any_record(record, code, counts_held[i]);
            back_call(number(counts_held[i], 0, block_len), record, sizeof record, block, block_len);
        }
}

/* A record that isn't well formed is 3, whichever of the conditions are missing besides. */
static void malformed_first(size_t code)
{
    static const bytes_fed counts_held[] = {0, 31, 32, 33, 64};
    uint8_t record[2 * LUFFA_RECORD_BYTES] = {0}, block[64];

    fill(block, sizeof block);
    for (size_t i = 0; i < COUNT_OF(counts_held); i++)
        for (size_t odd = 0; odd <= MOST_ODD; odd++)
            for (size_t block_len = 0; block_len <= sizeof block; block_len += 16) {
                any_odd_record(record, code, counts_held[i], odd);
                back_call(LUFFA_RECORD, record, LUFFA_RECORD_BYTES - 1, block, block_len);
                back_call(LUFFA_RECORD, record, LUFFA_RECORD_BYTES + 1, block, block_len);
                back_call(LUFFA_RECORD, record, sizeof record, block, block_len);
                back_call(LUFFA_RECORD, record, 208, block, block_len);
                back_call(LUFFA_RECORD, record, 0, block, block_len);
                record[2 + i] = 1;
                back_call(LUFFA_RECORD, record, LUFFA_RECORD_BYTES, block, block_len);
                record[2 + i] = 0;
                record[0] = 5;
                back_call(LUFFA_RECORD, record, LUFFA_RECORD_BYTES, block, block_len);
                record[0] = (uint8_t)code;
                set_count(record, most_bytes(code) + 1 + counts_held[i]);
                back_call(LUFFA_RECORD, record, LUFFA_RECORD_BYTES, block, block_len);
            }
}

/* Buffers without bytes may be null pointers. */
static void no_bytes(void)
{
    uint8_t record[LUFFA_RECORD_BYTES], copy[LUFFA_RECORD_BYTES], block[BLOCK] = {0};

    any_record(record, LUFFA_512, 64);
    memcpy(copy, record, sizeof copy);
    check(luffa_back(NULL, 0, NULL, 0) == LUFFA_RECORD, "no record and no block");
    check(luffa_back(NULL, 0, block, BLOCK) == LUFFA_RECORD, "no record");
    check(luffa_back(record, sizeof record, NULL, 0) == LUFFA_BACK, "no block");
    check(memcmp(record, copy, sizeof copy) == 0, "no block, and something written");
}

int main(void)
{
    for (size_t code = 1; code <= 4; code++) {
        counts(code);
        still_pending(code);
        single_bits(code);
        first_block(code);
        chain(code);
        other_blocks(code);
        for (size_t blocks = 1; blocks <= 6; blocks++)
            for (size_t cut = 0; cut <= BLOCK; cut += blocks == 3 ? 1 : 11)
                resent(code, blocks, cut);
        for (bytes_fed count = 0; count <= 3 * BLOCK + 1; count++)
            conditions(code, count);
        for (bytes_fed under = 0; under <= BLOCK; under++)
            conditions(code, most_bytes(code) - under);
        lengths(code);
        malformed_first(code);
    }
    no_bytes();
    return 0;
}
