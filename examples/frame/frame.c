/* A downhole logger packs three readings into 43 bits: five bytes, and three bits of a sixth. The digest
   is of these bits, in one call or as they come in; then the message has ended. To build it:
   gcc -Iinclude examples/frame/frame.c target/staticlib/libluffa.a -o frame
*/
#include <luffa.h>
#include <stdio.h>
#include <string.h>

static uint8_t frame[6];
static size_t bits;

/* Adds a reading to the frame, its highest bit first. */
static void pack(unsigned reading, unsigned width)
{
    for (; width-- > 0; bits++)
        frame[bits / 8] |= (uint8_t)((reading >> width & 1) << (7 - bits % 8));
}

static void show(const char *what, const uint8_t *bytes, size_t n)
{
    printf("%-10s ", what);
    for (size_t i = 0; i < n; i++)
        printf("%02x", bytes[i]);
    puts("");
}

int main(void)
{
    struct luffa_hash hash;
    uint8_t digest[LUFFA_256_BYTES], pieces[LUFFA_256_BYTES];

    pack(21874, 17); /* depth in decimetres */
    pack(1486, 11);  /* temperature in tenths of a degree */
    pack(20517, 15); /* pressure in kilopascals */
    show("43 bits", frame, sizeof frame);

    /* bits % 8 are the bits that count in the last byte. */
    if (luffa_digest_bits(LUFFA_256, frame, sizeof frame, bits % 8, digest, sizeof digest) != LUFFA_DONE)
        return 1;
    show("digest", digest, sizeof digest);

    if (luffa_hash_start(LUFFA_256, &hash) != LUFFA_DONE || luffa_hash_feed(&hash, frame, 2) != LUFFA_DONE ||
        luffa_hash_feed_bits(&hash, frame + 2, sizeof frame - 2, bits % 8) != LUFFA_DONE ||
        luffa_hash_finish(&hash, pieces, sizeof pieces) != LUFFA_DONE)
        return 1;
    printf("in pieces  %s\n", memcmp(pieces, digest, sizeof digest) == 0 ? "the same" : "another");
    printf("fed on     answer %u\n", (unsigned)luffa_hash_feed(&hash, frame, 1));
    return fflush(stdout) != 0;
}
