/* A logger sends its frame in blocks of 32 bytes, which are digested as they come. The third one is garbled on the way
   and sent again: the old one is taken back, and nothing before it is needed. To build it:
   gcc -Iinclude examples/resend/resend.c target/staticlib/libluffa.a -o resend
*/
#include <luffa.h>
#include <stdio.h>
#include <stdlib.h>
#include <string.h>

enum { BLOCK = LUFFA_BLOCK_BYTES, BLOCKS = 3 };

static const char frame[] = "1: 21874 dm, 148.6 C, 20517 kPa\n"
                            "2: 21879 dm, 148.7 C, 20522 kPa\n"
                            "3: 21884 dm, 148.7 C, 20528 kPa\n";
static const char garbled[] = "3: 21884 dm, 1#8.7 C, 2.528 kPa\n";
_Static_assert(sizeof frame - 1 == BLOCKS * BLOCK && sizeof garbled - 1 == BLOCK, "all blocks are whole");

/* What is kept between blocks; it could lie on a disk. */
static uint8_t record[LUFFA_RECORD_BYTES];

static void done(uint32_t answer)
{
    if (answer == LUFFA_DONE)
        return;
    printf("answer %u\n", (unsigned)answer);
    exit(1);
}

static void feed(const char *bytes, size_t n) { done(luffa_feed(record, sizeof record, (const uint8_t *)bytes, n)); }

static uint32_t take_back(const char *block)
{
    return luffa_back(record, sizeof record, (const uint8_t *)block, BLOCK);
}

/* The bytes fed so far, whose count ends the record, and their digest. */
static void show(const char *what)
{
    uint8_t digest[LUFFA_256_BYTES];

    done(luffa_finish(record, sizeof record, digest, sizeof digest));
    printf("%-10s %u bytes, ", what, record[LUFFA_RECORD_BYTES - 1]);
    for (size_t i = 0; i < sizeof digest; i++)
        printf("%02x", digest[i]);
    puts("");
}

int main(void)
{
    uint8_t whole[LUFFA_256_BYTES], digest[LUFFA_256_BYTES];

    done(luffa_start(LUFFA_256, record, sizeof record));
    for (size_t i = 0; i + 1 < BLOCKS; i++)
        feed(frame + BLOCK * i, BLOCK);
    feed(garbled, BLOCK);
    show("garbled");

    done(take_back(garbled));
    show("taken back");
    feed(frame + BLOCK * (BLOCKS - 1), BLOCK);
    show("sent again");

    done(luffa_digest(LUFFA_256, (const uint8_t *)frame, sizeof frame - 1, whole, sizeof whole));
    done(luffa_finish(record, sizeof record, digest, sizeof digest));
    printf("the frame  %s\n", memcmp(digest, whole, sizeof whole) == 0 ? "the same" : "another");

    /* Once a byte of the next frame has come, the block isn't the last any more. */
    feed("1", 1);
    printf("too late   answer %u\n", (unsigned)take_back(frame + BLOCK * (BLOCKS - 1)));
    return fflush(stdout) != 0;
}
