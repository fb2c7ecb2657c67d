/* A controller with three boards, one for each block of its state, dumps that by columns when it is started and again
   when it has taken a message block in. The engineer who commissions it injects the block into the first dump and holds
   the result against the second: the bit that differs names the board, the word and the position. To build it:
   gcc -Iinclude examples/columns/columns.c target/staticlib/libluffa.a -o columns
*/
#include <luffa.h>
#include <stdio.h>
#include <stdlib.h>

/* At code 2. */
enum { BOARDS = 3, DUMP = 32 * BOARDS, WORDS = 8 * BOARDS };

/* What the controller sent: a byte for each board, at positions 0 to 31. */
static const uint8_t first[DUMP] = {
    0xd9, 0xb9, 0x9f, 0x80, 0x7a, 0xf0, 0x2c, 0x53, 0xbd, 0xc1, 0x40, 0x51,
    0xf4, 0x33, 0x21, 0xef, 0x2c, 0xa4, 0x2b, 0x12, 0x94, 0xa6, 0xad, 0x87,
    0x66, 0xdd, 0x52, 0x05, 0x4b, 0xc2, 0x2d, 0xf8, 0x0e, 0x25, 0x4d, 0xbd,
    0x83, 0x8a, 0x3a, 0x34, 0x06, 0x44, 0x06, 0xe7, 0x87, 0x48, 0xce, 0x09,
    0x79, 0x38, 0x2d, 0x8c, 0x16, 0xd3, 0xe9, 0xc5, 0xb9, 0x14, 0xfc, 0x63,
    0xaa, 0x53, 0x02, 0x9f, 0x85, 0xeb, 0x88, 0xa6, 0x29, 0x8e, 0x37, 0x43,
    0x09, 0x73, 0x9b, 0xdc, 0x69, 0xb1, 0xd7, 0xf8, 0x6f, 0xdd, 0x7a, 0x8a,
    0xa8, 0x9e, 0x03, 0x51, 0x84, 0x69, 0xdf, 0xdf, 0x23, 0xe8, 0x6b, 0x89,
};
static const uint8_t second[DUMP] = {
    0x2e, 0x78, 0x32, 0x05, 0x57, 0x96, 0xb7, 0xc4, 0x32, 0xf4, 0xfc, 0xe4,
    0x08, 0xb2, 0x5a, 0x4e, 0x3c, 0xcd, 0x7a, 0x73, 0x95, 0xa5, 0xae, 0x84,
    0x29, 0x03, 0xb5, 0x64, 0x8c, 0x52, 0x8e, 0x49, 0x9b, 0x90, 0xf4, 0x1c,
    0x8f, 0x38, 0xef, 0x27, 0x0f, 0x79, 0x4e, 0x38, 0x6d, 0x4d, 0xcb, 0x0c,
    0xb9, 0xd0, 0x95, 0x4f, 0x06, 0x1e, 0xcc, 0xdc, 0xd8, 0x1a, 0xf7, 0x62,
    0x9c, 0x13, 0xae, 0x19, 0x82, 0xf5, 0x02, 0xbb, 0x01, 0x61, 0xd8, 0xac,
    0x12, 0x35, 0x67, 0x45, 0x58, 0xcb, 0x27, 0x98, 0x34, 0x37, 0x5b, 0x26,
    0x81, 0x72, 0x7e, 0xcd, 0x02, 0xdb, 0x19, 0x82, 0x53, 0xfc, 0x7f, 0x9d,
};
static const char block[] = "2: 21879 dm, 148.7 C, 20522 kPa\n";
_Static_assert(sizeof block - 1 == LUFFA_BLOCK_BYTES, "a block is whole");

static void done(uint32_t answer)
{
    if (answer == LUFFA_DONE)
        return;
    printf("answer %u\n", (unsigned)answer);
    exit(1);
}

static void words_of(const uint8_t *dump, uint32_t *words)
{
    done(luffa_words_from_columns(LUFFA_256, dump, DUMP, words, WORDS));
}

/* Every bit of a dump that is wrong, with its word. */
static void compare(const char *what, const uint8_t *dump, const uint8_t *right)
{
    uint32_t words[WORDS], right_words[WORDS];
    int wrong = 0;

    words_of(dump, words);
    words_of(right, right_words);
    for (size_t at = 0; at < DUMP; at++)
        for (size_t k = 0; k < 8; k++) {
            size_t l = at / BOARDS, j = at % BOARDS, word = 8 * j + k;
            if (((dump[at] ^ right[at]) >> k & 1) == 0)
                continue;
            printf("%-9s  position %zu, block %zu, word %zu: %08x, should be %08x\n", what, l, j, k,
                   (unsigned)words[word], (unsigned)right_words[word]);
            wrong = 1;
        }
    if (!wrong)
        printf("%-9s  right\n", what);
}

int main(void)
{
    struct luffa_hash started;
    uint8_t right[DUMP], message[LUFFA_BLOCK_BYTES];

    done(luffa_hash_start(LUFFA_256, &started));
    done(luffa_columns_from_words(LUFFA_256, started.state, WORDS, right, sizeof right));
    compare("started", first, right);

    done(luffa_columns_from_message((const uint8_t *)block, LUFFA_BLOCK_BYTES, message, sizeof message));
    done(luffa_columns_inject(LUFFA_256, right, sizeof right, message, sizeof message));
    compare("injected", second, right);

    /* The last byte was lost on the way. */
    uint32_t words[WORDS];
    printf("cut short  answer %u\n", (unsigned)luffa_words_from_columns(LUFFA_256, second, DUMP - 1, words, WORDS));
    return fflush(stdout) != 0;
}
