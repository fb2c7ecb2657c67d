/* The refusals of the one-call digest and of luffa_start, in their order. Those of feed, back and finish are
   in malformed.c (3, also before 17, 18, 4 and 2), bits.c (17, also before 4), limit.c (4), back.c (18) and
   digests.c (2), and those of longer output in output.c. The 4 of a call for a whole message can't be had: no
   machine can lend a message of 2^61 bytes. */
#include "test.h"

/* Odd bits that the message doesn't have: 17 where the code is known and the output buffer long enough. */
static void no_odd_bits(uint8_t *message, size_t message_len, size_t odd)
{
    digest_bits_call(LUFFA_WIDTH, 0, message, message_len, odd, LUFFA_512_BYTES, NULL);
    digest_bits_call(LUFFA_WIDTH, 257, message, message_len, odd, 0, NULL);
    for (size_t code = 1; code <= 4; code++) {
        digest_bits_call(LUFFA_OUT, code, message, message_len, odd, 0, NULL);
        digest_bits_call(LUFFA_OUT, code, message, message_len, odd, digest_bytes[code] - 1, NULL);
        digest_bits_call(LUFFA_ODD, code, message, message_len, odd, digest_bytes[code], NULL);
        digest_bits_call(LUFFA_ODD, code, message, message_len, odd, 100, NULL);
    }
}

int main(void)
{
    static const size_t message_lens[] = {0, 1, 32, 100};
    uint8_t message[100], record[LUFFA_RECORD_BYTES];

    fill(message, sizeof message);
    for (size_t i = 0; i < COUNT_OF(no_code); i++) {
        /* An unknown code has no digest length, so that no buffer is too short for it. */
        for (size_t out_len = 0; out_len <= 100; out_len++)
            for (size_t m = 0; m < 4; m++)
                digest_call(LUFFA_WIDTH, no_code[i], message, message_lens[m], out_len, NULL);
        for (size_t record_len = 0; record_len <= 2 * LUFFA_RECORD_BYTES; record_len++)
            start_call(LUFFA_WIDTH, no_code[i], record_len, NULL);
    }
    for (size_t code = 1; code <= 4; code++) {
        for (size_t out_len = 0; out_len < digest_bytes[code]; out_len++)
            for (size_t m = 0; m < 4; m++)
                digest_call(LUFFA_OUT, code, message, message_lens[m], out_len, NULL);
        for (size_t record_len = 0; record_len <= 2 * LUFFA_RECORD_BYTES; record_len++)
            start_call(record_len == LUFFA_RECORD_BYTES ? LUFFA_DONE : LUFFA_RECORD, code, record_len, record);
    }
    for (size_t i = 0; i < COUNT_OF(no_odd); i++)
        for (size_t m = 0; m < 4; m++)
            no_odd_bits(message, message_lens[m], no_odd[i]);
    for (size_t odd = 1; odd <= MOST_ODD; odd++)
        no_odd_bits(message, 0, odd);
    return 0;
}
