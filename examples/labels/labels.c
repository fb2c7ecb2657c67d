/* A pairing box draws its key labels from one pairing message: all 64 words of output, cut into sixteen labels
   of 16 bytes. Fewer words would have been the first of these labels. To build it:
   gcc -Iinclude examples/labels/labels.c target/staticlib/libluffa.a -o labels
*/
#include <luffa.h>
#include <stdio.h>
#include <string.h>

enum { LABEL_BYTES = 16, OUTPUT_BYTES = 4 * LUFFA_WORDS_MOST };

static int feed(uint8_t *record, const char *piece)
{
    return luffa_feed(record, LUFFA_RECORD_BYTES, (const uint8_t *)piece, strlen(piece)) == LUFFA_DONE;
}

static void show(unsigned label, const uint8_t *output)
{
    printf("label %2u  ", label);
    for (size_t i = 0; i < LABEL_BYTES; i++)
        printf("%02x", output[LABEL_BYTES * (label - 1) + i]);
    puts("");
}

int main(void)
{
    uint8_t record[LUFFA_RECORD_BYTES], output[OUTPUT_BYTES], fewer[OUTPUT_BYTES], digest[LUFFA_512_BYTES];
    struct luffa_output_answer answer;

    if (luffa_start(LUFFA_512, record, sizeof record) != LUFFA_DONE || !feed(record, "box 7 ") ||
        !feed(record, "pairs with controller 12, ") || !feed(record, "nonce 5f03a2c9"))
        return 1;
    answer = luffa_finish_output(record, sizeof record, LUFFA_WORDS_MOST, output, sizeof output);
    if (answer.number != LUFFA_DONE)
        return 1;
    show(1, output);
    show(2, output);
    show(16, output);
    printf("64 words  %u rounds\n", (unsigned)answer.rounds);

    /* The record is as it was: it can be asked again. */
    answer = luffa_finish_output(record, sizeof record, 12, fewer, sizeof fewer);
    if (answer.number != LUFFA_DONE || luffa_finish(record, sizeof record, digest, sizeof digest) != LUFFA_DONE)
        return 1;
    printf("12 words  %u rounds, %s\n", (unsigned)answer.rounds,
           memcmp(fewer, output, 4 * 12) == 0 ? "the first three labels" : "others");
    printf("digest    %s\n", memcmp(digest, output, sizeof digest) == 0 ? "the first four labels" : "another");
    answer = luffa_finish_output(record, sizeof record, LUFFA_WORDS_MOST + 1, output, sizeof output);
    printf("65 words  answer %u\n", (unsigned)answer.number);
    return fflush(stdout) != 0;
}
