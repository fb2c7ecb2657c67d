/* A state by columns: every bit at its place, there and back, injections against products that are worked out here,
   against the word form of appendix E and through the hash itself, and what is refused, 1 before 24. Lengths of 4 GiB
   are in wide.c. */
#include "test.h"

enum { POSITIONS = 32, MOST_BLOCKS = 5, MOST_DUMP = POSITIONS * MOST_BLOCKS };

/* By code, w; a state has 8w words, and its dump 32w bytes. */
static const size_t blocks[5] = {0, 3, 3, 4, 5};

static size_t words_of(size_t code) { return 8 * blocks[code]; }
static size_t dump_of(size_t code) { return POSITIONS * blocks[code]; }

/* ---- Places. */

/* The dump is that of the state, and the state that of the dump. */
static void converted(const char *what, size_t code, uint32_t state[][8], const uint8_t *dump)
{
    uint8_t columns[MOST_DUMP];
    uint32_t of_dump[MOST_BLOCKS][8];

    columns_from_words_call(LUFFA_DONE, code, state[0], words_of(code), dump_of(code), columns);
    check(memcmp(columns, dump, dump_of(code)) == 0, "%s at code %zu: another dump", what, code);
    words_from_columns_call(LUFFA_DONE, code, dump, dump_of(code), words_of(code), of_dump[0]);
    check(memcmp(of_dump, state, 4 * words_of(code)) == 0, "%s at code %zu: another state", what, code);
}

/* Document 02's sentence, bit by bit: a state with one bit set, at any place, and one with all others. */
static void bits(size_t code)
{
    size_t w = blocks[code];
    uint8_t dump[MOST_DUMP];
    uint32_t state[MOST_BLOCKS][8];

    for (size_t l = 0; l < POSITIONS; l++)
        for (size_t j = 0; j < w; j++)
            for (size_t k = 0; k < 8; k++)
                for (int others = 0; others <= 0xff; others += 0xff) {
                    memset(state, others, sizeof state);
                    memset(dump, others, sizeof dump);
                    state[j][k] ^= (uint32_t)1 << l;
                    dump[w * l + j] ^= (uint8_t)(1 << k);
                    converted("one bit", code, state, dump);
                }
}

/* The same of a message block, whose word k is bytes 4k to 4k + 3, the first highest. */
static void message_bits(void)
{
    uint8_t block[BLOCK], dump[BLOCK], columns[BLOCK];

    for (size_t k = 0; k < 8; k++)
        for (size_t l = 0; l < POSITIONS; l++)
            for (int others = 0; others <= 0xff; others += 0xff) {
                memset(block, others, sizeof block);
                memset(dump, others, sizeof dump);
                block[4 * k + 3 - l / 8] ^= (uint8_t)(1 << l % 8);
                dump[l] ^= (uint8_t)(1 << k);
                columns_from_message_call(LUFFA_DONE, block, BLOCK, BLOCK, columns);
                check(memcmp(columns, dump, BLOCK) == 0, "bit %zu of word %zu of a message", l, k);
            }
}

/* The dump of any state and the state of any dump lead back. */
static void there_and_back(size_t code)
{
    uint8_t dump[MOST_DUMP];
    uint32_t state[MOST_BLOCKS][8];

    for (int times = 0; times < 200; times++) {
        fill((uint8_t *)state, sizeof state);
        columns_from_words_call(LUFFA_DONE, code, state[0], words_of(code), dump_of(code), dump);
        converted("a state there and back", code, state, dump);
        fill(dump, sizeof dump);
        words_from_columns_call(LUFFA_DONE, code, dump, dump_of(code), words_of(code), state[0]);
        converted("a dump there and back", code, state, dump);
    }
}

/* ---- Injection. */

/* A product of 3.2, of polynomials modulo x^8 + x^4 + x^3 + x + 1. */
static uint8_t product(unsigned a, unsigned b)
{
    unsigned sum = 0;

    for (; b != 0; b >>= 1) {
        sum ^= b & 1 ? a : 0;
        a = a << 1 ^ (a & 0x80 ? 0x11b : 0);
    }
    return (uint8_t)sum;
}

/* 3.2.1 to 3.2.3, by w. The last number of a row is the message's. */
static const uint8_t matrices[MOST_BLOCKS + 1][MOST_BLOCKS][MOST_BLOCKS + 1] = {
    [3] = {{0x03, 0x02, 0x02, 0x01}, {0x02, 0x03, 0x02, 0x02}, {0x02, 0x02, 0x03, 0x04}},
    [4] = {{0x04, 0x06, 0x06, 0x07, 0x01},
           {0x07, 0x04, 0x06, 0x06, 0x02},
           {0x06, 0x07, 0x04, 0x06, 0x04},
           {0x06, 0x06, 0x07, 0x04, 0x08}},
    [5] = {{0x0f, 0x08, 0x0a, 0x0a, 0x08, 0x01},
           {0x08, 0x0f, 0x08, 0x0a, 0x0a, 0x02},
           {0x0a, 0x08, 0x0f, 0x08, 0x0a, 0x04},
           {0x0a, 0x0a, 0x08, 0x0f, 0x08, 0x08},
           {0x08, 0x0a, 0x0a, 0x08, 0x0f, 0x10}},
};

/* What the injection must leave, position by position: the matrix by the bytes of the blocks and of the message. */
static void by_matrix(size_t w, const uint8_t *dump, const uint8_t *message, uint8_t *wanted)
{
    for (size_t l = 0; l < POSITIONS; l++)
        for (size_t i = 0; i < w; i++) {
            const uint8_t *row = matrices[w][i];
            wanted[w * l + i] = product(row[w], message[l]);
            for (size_t j = 0; j < w; j++)
                wanted[w * l + i] ^= product(row[j], dump[w * l + j]);
        }
}

static void injected(const char *what, size_t code, uint8_t *dump, const uint8_t *message)
{
    uint8_t wanted[MOST_DUMP];

    by_matrix(blocks[code], dump, message, wanted);
    columns_inject_call(LUFFA_DONE, code, dump, dump_of(code), message, BLOCK);
    check(memcmp(dump, wanted, dump_of(code)) == 0, "%s injected at code %zu: another dump", what, code);
}

/* One bit of the state, or of the message. */
static void single_bits(size_t code)
{
    uint8_t dump[MOST_DUMP], message[BLOCK] = {0};

    for (size_t bit = 0; bit < 8 * dump_of(code); bit++) {
        memset(dump, 0, sizeof dump);
        dump[bit / 8] = (uint8_t)(1 << bit % 8);
        injected("nothing into one bit", code, dump, message);
    }
    for (size_t bit = 0; bit < 8 * BLOCK; bit++) {
        memset(dump, 0, sizeof dump);
        message[bit / 8] = (uint8_t)(1 << bit % 8);
        injected("one bit into zeros", code, dump, message);
        message[bit / 8] = 0;
    }
}

/* Each block in turn, and the message, has every byte at every position, another one at each; the others have none, any
   or the same. */
static void every_byte(size_t code)
{
    enum { NONE, ANY, SAME, KINDS };
    size_t w = blocks[code];
    uint8_t dump[MOST_DUMP], message[BLOCK];

    for (size_t j = 0; j <= w; j++)
        for (unsigned first = 0; first < 256; first++)
            for (int others = NONE; others < KINDS; others++) {
                memset(dump, 0, sizeof dump);
                memset(message, 0, sizeof message);
                if (others == ANY) {
                    fill(dump, sizeof dump);
                    fill(message, sizeof message);
                }
                for (size_t l = 0; l < POSITIONS; l++) {
                    uint8_t byte = (uint8_t)(first + 37 * l);
                    if (others == SAME) {
                        memset(dump + w * l, byte, w);
                        message[l] = byte;
                    }
                    *(j < w ? &dump[w * l + j] : &message[l]) = byte;
                }
                injected("every byte", code, dump, message);
            }
}

/* The sum of two states with the sum of two messages injected is the sum of both. */
static void linear(size_t code)
{
    uint8_t a[MOST_DUMP], b[MOST_DUMP], sum[MOST_DUMP], a_message[BLOCK], b_message[BLOCK], sum_message[BLOCK];

    for (int times = 0; times < 100; times++) {
        fill(a, sizeof a);
        fill(b, sizeof b);
        fill(a_message, BLOCK);
        fill(b_message, BLOCK);
        for (size_t i = 0; i < MOST_DUMP; i++)
            sum[i] = a[i] ^ b[i];
        for (size_t i = 0; i < BLOCK; i++)
            sum_message[i] = a_message[i] ^ b_message[i];
        columns_inject_call(LUFFA_DONE, code, a, dump_of(code), a_message, BLOCK);
        columns_inject_call(LUFFA_DONE, code, b, dump_of(code), b_message, BLOCK);
        columns_inject_call(LUFFA_DONE, code, sum, dump_of(code), sum_message, BLOCK);
        for (size_t i = 0; i < dump_of(code); i++)
            check(sum[i] == (a[i] ^ b[i]), "code %zu: not the sum at byte %zu", code, i);
    }
}

/* ---- The word form. */

/* 3.2's pseudo code of 0x02 times a block. */
static void twice(uint32_t a[8])
{
    uint32_t tmp = a[7];

    for (size_t k = 7; k > 0; k--)
        a[k] = a[k - 1] ^ (k == 4 || k == 3 || k == 1 ? tmp : 0);
    a[0] = tmp;
}

static void add(uint32_t a[8], const uint32_t b[8])
{
    for (size_t k = 0; k < 8; k++)
        a[k] ^= b[k];
}

/* 0x02 times each block, and the one so many places after it. */
static void twice_and_next(size_t w, uint32_t h[][8], size_t after)
{
    uint32_t was[MOST_BLOCKS][8];

    memcpy(was, h, sizeof was);
    for (size_t j = 0; j < w; j++) {
        twice(h[j]);
        add(h[j], was[(j + after) % w]);
    }
}

/* Appendix E: H becomes eta, at w = 5 xi, and X. */
static void by_words(size_t w, uint32_t h[][8], const uint8_t *block)
{
    uint32_t sum[8] = {0}, message[8] = {0};

    for (size_t i = 0; i < BLOCK; i++)
        message[i / 4] = message[i / 4] << 8 | block[i];
    for (size_t j = 0; j < w; j++)
        add(sum, h[j]);
    twice(sum);
    for (size_t j = 0; j < w; j++)
        add(h[j], sum);
    if (w == 5)
        twice_and_next(w, h, 1);
    if (w >= 4)
        twice_and_next(w, h, w - 1);
    for (size_t j = 0; j < w; j++, twice(message))
        add(h[j], message);
}

/* What a message block makes of a state by columns, as the words of a state again. */
static void by_columns(size_t code, uint32_t state[][8], const uint8_t *block)
{
    uint8_t dump[MOST_DUMP], message[BLOCK];

    columns_from_words_call(LUFFA_DONE, code, state[0], words_of(code), dump_of(code), dump);
    columns_from_message_call(LUFFA_DONE, block, BLOCK, BLOCK, message);
    injected("a block", code, dump, message);
    words_from_columns_call(LUFFA_DONE, code, dump, dump_of(code), words_of(code), state[0]);
}

static void as_words(size_t code)
{
    uint8_t block[BLOCK];
    uint32_t state[MOST_BLOCKS][8], wanted[MOST_BLOCKS][8];

    for (int times = 0; times < 200; times++) {
        fill((uint8_t *)state, sizeof state);
        fill(block, sizeof block);
        memcpy(wanted, state, sizeof wanted);
        by_words(blocks[code], wanted, block);
        by_columns(code, state, block);
        check(memcmp(state, wanted, 4 * words_of(code)) == 0, "code %zu: not what the word form gives", code);
    }
}

/* The hash's own injection can't be called, but a feed injects and permutes, and luffa_back undoes both: after one
   block fed and another taken back, the other makes of the state what the one made of the state before. */
static void as_the_hash(size_t code)
{
    uint8_t record[LUFFA_RECORD_BYTES], one[BLOCK], other[BLOCK];
    uint32_t first[MOST_BLOCKS][8], second[MOST_BLOCKS][8];

    for (int times = 0; times < 100; times++) {
        any_record(record, code, 64);
        fill(one, sizeof one);
        fill(other, sizeof other);
        struct luffa_hash before = in_struct(record);
        feed_call(LUFFA_DONE, record, sizeof record, one, BLOCK);
        back_call(LUFFA_DONE, record, sizeof record, other, BLOCK);
        struct luffa_hash after = in_struct(record);
        memcpy(first, before.state, sizeof first);
        memcpy(second, after.state, sizeof second);
        by_columns(code, first, one);
        by_columns(code, second, other);
        check(memcmp(first, second, 4 * words_of(code)) == 0, "code %zu: not what the hash injects", code);
    }
}

/* ---- Refusals. */

/* Any bytes and words, more than any length below. */
static uint8_t bytes[1024], more_bytes[1024];
static uint32_t words[1024];

/* Both conversions of a state in buffers of these lengths, and the injection. */
static void at_lengths(uint32_t want, size_t code, size_t dump_len, size_t words_len)
{
    columns_from_words_call(want, code, words, words_len, dump_len, bytes);
    words_from_columns_call(want, code, bytes, dump_len, words_len, words);
}

static void at_message_lengths(uint32_t want, size_t code, size_t dump_len, size_t message_len)
{
    columns_inject_call(want, code, bytes, dump_len, more_bytes, message_len);
}

/* Lengths that are right at some code or for some buffer, those one less and more, and such as are in other units. */
static const size_t lens[] = {
    0,  1,  3,  8,   23,  24,  25,  31,  32,  33,  39,  40,  41,  64,
    95, 96, 97, 127, 128, 129, 159, 160, 161, 192, 256, 320, 384, 512,
    640,
};

static void lengths(size_t code)
{
    size_t state = words_of(code), dump = dump_of(code);

    for (size_t len = 0; len <= 200; len++) {
        at_lengths(len == dump ? LUFFA_DONE : LUFFA_COLUMNS, code, len, state);
        at_lengths(len == state ? LUFFA_DONE : LUFFA_COLUMNS, code, dump, len);
        at_message_lengths(len == dump ? LUFFA_DONE : LUFFA_COLUMNS, code, len, BLOCK);
        at_message_lengths(len == BLOCK ? LUFFA_DONE : LUFFA_COLUMNS, code, dump, len);
    }
    for (size_t i = 0; i < COUNT_OF(lens); i++)
        for (size_t k = 0; k < COUNT_OF(lens); k++) {
            int right = lens[i] == dump;
            at_lengths(right && lens[k] == state ? LUFFA_DONE : LUFFA_COLUMNS, code, lens[i], lens[k]);
            at_message_lengths(right && lens[k] == BLOCK ? LUFFA_DONE : LUFFA_COLUMNS, code, lens[i], lens[k]);
        }
}

/* An unknown code has no w: it is 1 whatever the lengths, right ones of some code and others. */
static void unknown(size_t code)
{
    for (size_t i = 0; i < COUNT_OF(lens); i++) {
        for (size_t w = 0; w <= MOST_BLOCKS; w++) {
            at_lengths(LUFFA_WIDTH, code, lens[i], 8 * w);
            at_lengths(LUFFA_WIDTH, code, POSITIONS * w, lens[i]);
            at_message_lengths(LUFFA_WIDTH, code, POSITIONS * w, lens[i]);
        }
        at_message_lengths(LUFFA_WIDTH, code, lens[i], BLOCK);
    }
}

static void message_lengths(void)
{
    for (size_t len = 0; len <= 200; len++) {
        columns_from_message_call(len == BLOCK ? LUFFA_DONE : LUFFA_COLUMNS, bytes, len, BLOCK, more_bytes);
        columns_from_message_call(len == BLOCK ? LUFFA_DONE : LUFFA_COLUMNS, bytes, BLOCK, len, more_bytes);
    }
    for (size_t i = 0; i < COUNT_OF(lens); i++)
        for (size_t k = 0; k < COUNT_OF(lens); k++) {
            uint32_t want = lens[i] == BLOCK && lens[k] == BLOCK ? LUFFA_DONE : LUFFA_COLUMNS;
            columns_from_message_call(want, bytes, lens[i], lens[k], more_bytes);
        }
}

int main(void)
{
    fill(bytes, sizeof bytes);
    fill(more_bytes, sizeof more_bytes);
    fill((uint8_t *)words, sizeof words);
    message_bits();
    message_lengths();
    for (size_t code = 1; code <= 4; code++) {
        bits(code);
        there_and_back(code);
        single_bits(code);
        every_byte(code);
        linear(code);
        as_words(code);
        as_the_hash(code);
        lengths(code);
    }
    for (size_t i = 0; i < COUNT_OF(no_code); i++)
        unknown(no_code[i]);
    return 0;
}
