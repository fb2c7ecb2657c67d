/* The calls over a lent struct beside those over a record's bytes: the same numbers, the same
   digests, and after each call the struct holds what the record holds. A struct that isn't well
   formed is refused 3, also with a code that no record can have. */
#include "test.h"

static uint8_t message[300];

/* A record and the struct with what it holds, all calls made over both. */
struct pair {
    uint8_t record[LUFFA_RECORD_BYTES];
    struct luffa_hash hash;
};

static void same(const struct pair *p, const char *after)
{
    struct luffa_hash hash = in_struct(p->record);

    check(memcmp(&hash, &p->hash, sizeof hash) == 0, "code %zu, after %s: struct and record differ", p->hash.code,
          after);
}

static void started(struct pair *p, size_t code)
{
    start_call(LUFFA_DONE, code, sizeof p->record, p->record);
    hash_start_call(LUFFA_DONE, code, &p->hash);
    same(p, "start");
}

static void bits_fed(uint32_t want, struct pair *p, size_t at, size_t n, size_t odd)
{
    feed_bits_call(want, p->record, sizeof p->record, message + at, n, odd);
    hash_feed_bits_call(want, &p->hash, message + at, n, odd);
    same(p, "feed");
}

static void fed(uint32_t want, struct pair *p, size_t at, size_t n) { bits_fed(want, p, at, n, 0); }

static void finished(const struct pair *p)
{
    uint8_t digest[LUFFA_512_BYTES], other[LUFFA_512_BYTES];
    size_t n = digest_bytes[p->hash.code];

    for (size_t room = n; room <= n + 3; room++) {
        finish_call(LUFFA_DONE, p->record, sizeof p->record, room, digest);
        hash_finish_call(LUFFA_DONE, &p->hash, room, other);
        check(memcmp(digest, other, n) == 0, "code %zu: struct and record have two digests", p->hash.code);
    }
    for (size_t room = 0; room < n; room++)
        hash_finish_call(LUFFA_OUT, &p->hash, room, NULL);
}

/* Every length up to 100 bytes in every two pieces: the digest of the whole. */
static void cuts(size_t code)
{
    uint8_t digest[LUFFA_512_BYTES], got[LUFFA_512_BYTES];
    struct pair p;

    for (size_t n = 0; n <= 100; n++) {
        digest_call(LUFFA_DONE, code, message, n, digest_bytes[code], digest);
        for (size_t cut = 0; cut <= n; cut++) {
            started(&p, code);
            fed(LUFFA_DONE, &p, 0, cut);
            fed(LUFFA_DONE, &p, cut, n - cut);
            hash_finish_call(LUFFA_DONE, &p.hash, digest_bytes[code], got);
            check(memcmp(got, digest, digest_bytes[code]) == 0, "%zu bytes at code %zu cut at %zu", n, code, cut);
        }
    }
}

/* A well-formed record of any state, this count and these odd bits, as a struct. */
static void any(struct pair *p, size_t code, bytes_fed count, size_t odd)
{
    any_odd_record(p->record, code, count, odd);
    p->hash = in_struct(p->record);
}

static void any_state(size_t code)
{
    struct pair p;

    for (uint64_t count = 0; count < 64; count++) {
        any(&p, code, count, 0);
        finished(&p);
        for (size_t n = 0; n <= 100; n += 1 + n / 8)
            fed(LUFFA_DONE, &p, n, n);
        finished(&p);
    }
}

/* A struct that gets odd bits at each pending index, and one that has them: it is finished, and takes no
   more, be it nothing. */
static void odd_bits(size_t code)
{
    struct pair p;

    for (uint64_t count = 0; count < 32; count++)
        for (size_t odd = 1; odd <= MOST_ODD; odd++) {
            any(&p, code, count, 0);
            bits_fed(LUFFA_DONE, &p, count, 1 + count * odd % 50, odd);
            finished(&p);
            any(&p, code, count, odd);
            fed(LUFFA_ODD, &p, 0, 0);
            fed(LUFFA_ODD, &p, 0, 1);
            bits_fed(LUFFA_ODD, &p, 0, 1, odd);
            finished(&p);
        }
}

/* Odd bits that no piece has, judged whole. */
static void refused_odd(size_t code)
{
    struct pair p;

    any(&p, code, 40, 0);
    for (size_t i = 0; i < COUNT_OF(no_odd); i++) {
        bits_fed(LUFFA_ODD, &p, 0, 0, no_odd[i]);
        bits_fed(LUFFA_ODD, &p, 0, 1, no_odd[i]);
    }
    for (size_t odd = 1; odd <= MOST_ODD; odd++)
        bits_fed(LUFFA_ODD, &p, 0, 0, odd);
    any(&p, code, most_bytes(code), 0);
    bits_fed(LUFFA_ODD, &p, 0, 2, 8);
}

static void limit(size_t code)
{
    struct pair p;

    for (uint64_t left = 0; left <= 70; left++) {
        any(&p, code, most_bytes(code) - left, 0);
        bits_fed(LUFFA_LONG, &p, 0, left + 2, 1 + left % MOST_ODD);
        fed(LUFFA_LONG, &p, 0, left + 1);
        fed(LUFFA_LONG, &p, 0, sizeof message);
        fed(LUFFA_DONE, &p, 0, 0);
        fed(LUFFA_DONE, &p, 0, left);
        fed(LUFFA_LONG, &p, 0, 1);
        bits_fed(LUFFA_DONE, &p, 0, 1, 1 + left % MOST_ODD);
        fed(LUFFA_ODD, &p, 0, 1);
        finished(&p);
    }
}

/* The low word of the count carries into the high one; at codes 1 and 2 it can't get there. */
static void carry(size_t code)
{
    struct pair p;

    for (size_t before = 1; before <= 40; before++)
        for (size_t odd = 0; odd <= MOST_ODD; odd++) {
            any(&p, code, TWO_TO(64) * 5 - before, 0);
            bits_fed(LUFFA_DONE, &p, 0, 41, odd);
            check(p.hash.count_high == 5, "no carry at code %zu", code);
            finished(&p);
        }
}

static void refused(struct luffa_hash hash)
{
    hash_feed_call(LUFFA_RECORD, &hash, message, 0);
    hash_feed_call(LUFFA_RECORD, &hash, message, 1);
    hash_feed_call(LUFFA_RECORD, &hash, message, sizeof message);
    hash_finish_call(LUFFA_RECORD, &hash, 0, NULL);
    hash_finish_call(LUFFA_RECORD, &hash, LUFFA_512_BYTES, NULL);
    hash_finish_output_call(LUFFA_RECORD, &hash, 1, 4, NULL);
    hash_finish_output_call(LUFFA_RECORD, &hash, MOST_WORDS, 0, NULL);
}

/* What is well formed with one thing in it changed. */
static void malformed(size_t code, uint64_t count, size_t odd)
{
    static const size_t unknown[] = {0, 5, 6, 255, 256, 257, 258, 259, 260, 65537, (size_t)1 << 32 | 2, SIZE_MAX};
    struct luffa_hash hash;
    struct pair p;

    any(&p, code, count, odd);
    for (size_t i = 0; i < sizeof unknown / sizeof *unknown; i++) {
        hash = p.hash;
        hash.code = unknown[i];
        refused(hash);
        hash_start_call(LUFFA_WIDTH, unknown[i], &hash);
    }
    for (int bit = 3; bit < 64; bit++) {
        hash = p.hash;
        hash.odd |= (size_t)1 << bit;
        refused(hash);
    }
    for (size_t i = state_bytes[code] / 4; i < 40; i++)
        for (int bit = 0; bit < 32; bit++) {
            hash = p.hash;
            hash.state[i] = UINT32_C(1) << bit;
            refused(hash);
        }
    /* Every bit after the message's. */
    for (size_t i = 8 * (count % 32) + odd; i < 256; i++) {
        hash = p.hash;
        hash.pending[i / 8] |= (uint8_t)(0x80 >> i % 8);
        refused(hash);
    }
    for (int bit = code <= 2 ? 61 : 125; bit < 128; bit++) {
        hash = p.hash;
        *(bit < 64 ? &hash.count_low : &hash.count_high) |= UINT64_C(1) << bit % 64;
        refused(hash);
    }
    if (odd == 0)
        fed(LUFFA_DONE, &p, 0, 40);
    finished(&p);
}

int main(void)
{
    fill(message, sizeof message);
    for (size_t code = 1; code <= 4; code++) {
        cuts(code);
        any_state(code);
        odd_bits(code);
        refused_odd(code);
        limit(code);
        if (code > 2)
            carry(code);
        for (uint64_t count = 0; count < 33; count += 8)
            malformed(code, count, 0);
        for (size_t odd = 1; odd <= MOST_ODD; odd++)
            malformed(code, 24 + odd, odd);
    }
    return 0;
}
