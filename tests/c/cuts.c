/* A message of every length up to 100 bytes, fed in every two pieces, byte by byte and, at 100 bytes,
   in every three pieces: always the digest of the whole. And of every length up to 300 bits that stops
   inside a byte, in every two pieces. */
#include "test.h"

static uint8_t message[100];

/* The pieces, the last with odd bits or without. */
static void fed(size_t code, const size_t *pieces, size_t how_many, size_t odd, const uint8_t *digest)
{
    uint8_t record[LUFFA_RECORD_BYTES], got[LUFFA_512_BYTES];
    size_t at = 0;

    start_call(LUFFA_DONE, code, sizeof record, record);
    for (size_t i = 0; i < how_many; i++) {
        feed_bits_call(LUFFA_DONE, record, sizeof record, message + at, pieces[i], i + 1 < how_many ? 0 : odd);
        at += pieces[i];
    }
    finish_call(LUFFA_DONE, record, sizeof record, digest_bytes[code], got);
    check(memcmp(got, digest, digest_bytes[code]) == 0,
          "%zu bytes, odd %zu, at code %zu in %zu pieces, the first of %zu", at, odd, code, how_many,
          how_many > 0 ? pieces[0] : 0);
}

static void odd_cuts(size_t code)
{
    uint8_t digest[LUFFA_512_BYTES];

    for (size_t n = 1; n <= 300 / 8; n++)
        for (size_t odd = 1; odd <= MOST_ODD; odd++) {
            digest_bits_call(LUFFA_DONE, code, message, n, odd, digest_bytes[code], digest);
            for (size_t cut = 0; cut < n; cut++)
                fed(code, (size_t[]){cut, n - cut}, 2, odd, digest);
        }
}

int main(void)
{
    uint8_t digest[LUFFA_512_BYTES];
    size_t pieces[2 * sizeof message];

    fill(message, sizeof message);
    for (size_t code = 1; code <= 4; code++) {
        for (size_t n = 0; n <= sizeof message; n++) {
            digest_call(LUFFA_DONE, code, message, n, digest_bytes[code], digest);
            for (size_t cut = 0; cut <= n; cut++)
                fed(code, (size_t[]){cut, n - cut}, 2, 0, digest);
            /* Single bytes, with an empty piece before each. */
            for (size_t i = 0; i < 2 * n; i++)
                pieces[i] = i % 2;
            fed(code, pieces, 2 * n, 0, digest);
        }
        for (size_t a = 0; a <= sizeof message; a++)
            for (size_t b = 0; a + b <= sizeof message; b++)
                fed(code, (size_t[]){a, b, sizeof message - a - b}, 3, 0, digest);
        odd_cuts(code);
    }
    return 0;
}
