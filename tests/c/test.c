/* The functions of test.h. */
#define _DEFAULT_SOURCE /* MAP_ANONYMOUS */
#include "test.h"
#include <stdarg.h>
#include <sys/mman.h>

void check(int holds, const char *words, ...)
{
    va_list arguments;

    if (holds)
        return;
    va_start(arguments, words);
    vprintf(words, arguments);
    va_end(arguments);
    putchar('\n');
    exit(1);
}

/* xorshift */
static uint8_t any_byte(void)
{
    static uint64_t x = 0x0123456789abcdef;

    x ^= x << 13;
    x ^= x >> 7;
    x ^= x << 17;
    return (uint8_t)(x >> 56);
}

void fill(uint8_t *bytes, size_t n)
{
    for (size_t i = 0; i < n; i++)
        bytes[i] = any_byte();
}

/* ---- Lent buffers. */

enum { PAGE = 4096, ROOM = 16 * PAGE, EDGE = 64 };

struct lent {
    uint8_t *room; /* between two pages that can't be touched */
    size_t size;   /* its bytes: ROOM, or more where more was lent */
    uint8_t *bytes;
    size_t n;
    uint8_t *was; /* what is watched, as it was lent */
};

/* What is watched: the lent bytes, and those of the room up to EDGE before and after them. */
static size_t watched(const struct lent *l, uint8_t **from)
{
    size_t before = (size_t)(l->bytes - l->room), after = l->size - before - l->n;

    before = before < EDGE ? before : EDGE;
    after = after < EDGE ? after : EDGE;
    *from = l->bytes - before;
    return before + l->n + after;
}

/* Finds room for n bytes and those watched around them. It is all mapped: where there is a block of the
   heap, valgrind looks for lost ones in everything that a test has mapped. */
static void make_room(struct lent *l, size_t n)
{
    size_t size = ROOM;

    while (size < EDGE + n + EDGE)
        size *= 2;
    if (l->size >= size)
        return;
    if (l->size > 0)
        munmap(l->room - PAGE, 2 * (PAGE + l->size));
    uint8_t *pages = mmap(NULL, 2 * (PAGE + size), PROT_NONE, MAP_PRIVATE | MAP_ANONYMOUS, -1, 0);
    check(pages != MAP_FAILED, "no memory");
    l->room = pages + PAGE;
    l->size = size;
    l->was = l->room + size + PAGE;
    check(mprotect(l->room, size, PROT_READ | PROT_WRITE) == 0, "no memory");
    check(mprotect(l->was, size, PROT_READ | PROT_WRITE) == 0, "no memory");
    fill(l->room, size);
}

/* Lends a copy of n bytes at this place of the room, or any n bytes where there are none to copy. */
static uint8_t *lend_at(struct lent *l, uint8_t *at, const uint8_t *bytes, size_t n)
{
    uint8_t *from;

    l->bytes = at;
    l->n = n;
    if (bytes == NULL)
        fill(l->bytes, n);
    else
        memcpy(l->bytes, bytes, n);
    size_t all = watched(l, &from);
    memcpy(l->was, from, all);
    return at;
}

/* As it falls, they stand against the page before the room, against the one after it, so that an access
   outside them is seen on either side, or at any address between that is a multiple of `align`. A buffer
   of no bytes may be a null pointer. */
static uint8_t *lend_aligned(struct lent *l, const uint8_t *bytes, size_t n, size_t align)
{
    uint8_t place = any_byte(), *at;

    make_room(l, n);
    switch (place % 3) {
    case 0:
        at = l->room;
        break;
    case 1:
        at = l->room + l->size - n;
        break;
    default:
        at = l->room + EDGE + place % EDGE / align * align;
    }
    lend_at(l, at, bytes, n);
    return n == 0 && place % 3 == 0 ? NULL : at;
}

static uint8_t *lend(struct lent *l, const uint8_t *bytes, size_t n) { return lend_aligned(l, bytes, n, 1); }

/* Against the page after the room: what is lent behind them stands there, and nobody may touch it. */
static uint8_t *lend_last(struct lent *l, const uint8_t *bytes, size_t n)
{
    make_room(l, n);
    return lend_at(l, l->room + l->size - n, bytes, n);
}

/* Words, the last of which may be hidden. */
static uint32_t *lend_words(struct lent *l, const uint32_t *words, size_t n, size_t hidden)
{
    size_t bytes = 4 * (n - hidden);

    return hidden == 0 ? (void *)lend_aligned(l, (const uint8_t *)words, bytes, 4)
                       : (void *)lend_last(l, (const uint8_t *)words, bytes);
}

/* Says what may be done with the pages of n bytes. */
static void protect(void *from, size_t n, int protection)
{
    size_t before = (uintptr_t)from % PAGE;

    check(mprotect((uint8_t *)from - before, before + n, protection) == 0, "no protection");
}

/* In one call of 256, as valgrind takes its time over pages, what is only read can't be written, nor can the rest where
   the call is refused. */
static int sealed;

static void seal(const struct lent *read, const struct lent *written, uint32_t want)
{
    sealed = any_byte() == 0;
    if (sealed)
        protect(read->room, read->size, PROT_READ);
    if (sealed && want != LUFFA_DONE)
        protect(written->room, written->size, PROT_READ);
}

static void unseal(const struct lent *read, const struct lent *written)
{
    if (sealed) {
        protect(read->room, read->size, PROT_READ | PROT_WRITE);
        protect(written->room, written->size, PROT_READ | PROT_WRITE);
    }
}

/* Whether nothing changed but, perhaps, the first `written` bytes. */
static int kept(const struct lent *l, size_t written)
{
    uint8_t *from;
    size_t all = watched(l, &from), before = (size_t)(l->bytes - from);

    return memcmp(from, l->was, before) == 0 &&
           memcmp(l->bytes + written, l->was + before + written, all - before - written) == 0;
}

/* Whether these bytes are there, and nothing changed around them. */
static int left(const struct lent *l, const void *bytes)
{
    return kept(l, l->n) && memcmp(l->bytes, bytes, l->n) == 0;
}

/* Whether the number is the one wanted; where it isn't, prints the record that was lent. */
static int answered(uint32_t got, uint32_t want, const struct lent *record)
{
    uint8_t *from;

    watched(record, &from);
    for (size_t i = 0; got != want && i < record->n; i++)
        printf("%02x%s", record->was[record->bytes - from + (ptrdiff_t)i], i + 1 < record->n ? "" : "\n");
    return got == want;
}

/* ---- Records. */

const size_t digest_bytes[5] = {0, LUFFA_224_BYTES, LUFFA_256_BYTES, LUFFA_384_BYTES, LUFFA_512_BYTES};
const size_t state_bytes[5] = {0, 96, 96, 128, 160};

const size_t no_code[18] = {
    0,           5,
    6,           7,
    8,           255,
    256,         257,
    260,         65536 + 2,
    1u << 31,    (size_t)1 << 32,
    4294967297u, 4294967300u,
    1ul << 63,   (1ul << 63) + 1,
    SIZE_MAX,    SIZE_MAX - 2,
};

const size_t no_odd[10] = {
    8, 9, 255, 256, 257, 65539, (size_t)1 << 32, ((size_t)1 << 32) + 1, ((size_t)1 << 63) + 5, SIZE_MAX,
};

const size_t no_words[20] = {
    0,
    MOST_WORDS + 1,
    MOST_WORDS + 2,
    128,
    255,
    256,
    256 + 1,
    256 + MOST_WORDS,
    65536 + 7,
    (size_t)1 << 31,
    (size_t)1 << 32,
    ((size_t)1 << 32) + 1,
    ((size_t)1 << 32) + MOST_WORDS,
    (size_t)1 << 62,
    ((size_t)1 << 62) + 1,
    ((size_t)1 << 62) + MOST_WORDS,
    (size_t)1 << 63,
    ((size_t)1 << 63) + 8,
    SIZE_MAX - MOST_WORDS + 1,
    SIZE_MAX,
};

bytes_fed count_of(const uint8_t *record)
{
    bytes_fed count = 0;

    for (size_t i = COUNT; i < LUFFA_RECORD_BYTES; i++)
        count = count << 8 | record[i];
    return count;
}

void set_count(uint8_t *record, bytes_fed count)
{
    for (size_t i = LUFFA_RECORD_BYTES; i > COUNT; i--, count >>= 8)
        record[i - 1] = (uint8_t)count;
}

bytes_fed most_bytes(size_t code) { return code <= 2 ? TWO_TO(61) - 1 : TWO_TO(125) - 1; }

uint8_t odd_byte(uint8_t byte, size_t odd)
{
    return (uint8_t)(byte >> (8 - odd) << (8 - odd));
}

void any_odd_record(uint8_t *record, size_t code, bytes_fed count, size_t odd)
{
    memset(record, 0, LUFFA_RECORD_BYTES);
    record[0] = (uint8_t)code;
    record[1] = (uint8_t)odd;
    fill(record + STATE, state_bytes[code]);
    fill(record + PENDING, count % 32);
    if (odd > 0)
        record[PENDING + count % 32] = odd_byte(any_byte(), odd);
    set_count(record, count);
}

void any_record(uint8_t *record, size_t code, bytes_fed count) { any_odd_record(record, code, count, 0); }

struct luffa_hash in_struct(const uint8_t *record)
{
    bytes_fed count = count_of(record);
    struct luffa_hash hash = {
        .code = record[0], .odd = record[1], .count_high = (uint64_t)(count >> 64), .count_low = (uint64_t)count};

    for (size_t i = 0; i < 40; i++)
        for (size_t j = 0; j < 4; j++)
            hash.state[i] = hash.state[i] << 8 | record[STATE + 4 * i + j];
    memcpy(hash.pending, record + PENDING, sizeof hash.pending);
    return hash;
}

static int zeros(const uint8_t *bytes, size_t n)
{
    for (size_t i = 0; i < n; i++)
        if (bytes[i] != 0)
            return 0;
    return 1;
}

/* ---- The calls. */

/* Which of two calls is made: that with `_bits` in its name, or the other. */
enum form { BITS, PLAIN };

static void digested(enum form form, uint32_t want, size_t code, const uint8_t *message, size_t message_len, size_t odd,
                     size_t out_len, uint8_t *digest)
{
    static struct lent m, o;
    uint8_t *in = lend(&m, message, message_len), *out = lend(&o, NULL, out_len);
    size_t written = want == LUFFA_DONE ? digest_bytes[code] : 0;

    uint32_t got = form == BITS ? luffa_digest_bits(code, in, message_len, odd, out, out_len)
                                : luffa_digest(code, in, message_len, out, out_len);
    check(got == want, "digest of %zu bytes, odd %zu, at code %zu into %zu bytes: answered %u, wanted %u", message_len,
          odd, code, out_len, got, want);
    check(kept(&m, 0) && kept(&o, written),
          "digest of %zu bytes, odd %zu, at code %zu into %zu bytes, answer %u: wrote outside the digest", message_len,
          odd, code, out_len, got);
    if (digest != NULL)
        memcpy(digest, o.bytes, written);
}

void digest_bits_call(uint32_t want, size_t code, const uint8_t *message, size_t message_len, size_t odd,
                      size_t out_len, uint8_t *digest)
{
    if (odd == 0)
        digest_call(want, code, message, message_len, out_len, digest);
    else
        digested(BITS, want, code, message, message_len, odd, out_len, digest);
}

void digest_call(uint32_t want, size_t code, const uint8_t *message, size_t message_len, size_t out_len,
                 uint8_t *digest)
{
    uint8_t with_bits[LUFFA_512_BYTES], without[LUFFA_512_BYTES];

    digested(BITS, want, code, message, message_len, 0, out_len, with_bits);
    digested(PLAIN, want, code, message, message_len, 0, out_len, without);
    if (want != LUFFA_DONE)
        return;
    check(memcmp(with_bits, without, digest_bytes[code]) == 0, "two digests of %zu bytes at code %zu", message_len,
          code);
    if (digest != NULL)
        memcpy(digest, without, digest_bytes[code]);
}

void start_call(uint32_t want, size_t code, size_t record_len, uint8_t *record)
{
    static struct lent r;
    uint8_t *lent = lend(&r, NULL, record_len);

    uint32_t got = luffa_start(code, lent, record_len);
    check(got == want, "start at code %zu in %zu bytes: answered %u, wanted %u", code, record_len, got, want);
    check(kept(&r, want == LUFFA_DONE ? LUFFA_RECORD_BYTES : 0),
          "start at code %zu in %zu bytes, answer %u: wrote outside the record", code, record_len, got);
    if (want != LUFFA_DONE)
        return;
    size_t unused = STATE + state_bytes[code];
    check(lent[0] == code && zeros(lent + 1, STATE - 1) && zeros(lent + unused, LUFFA_RECORD_BYTES - unused),
          "start at code %zu: not the record of an empty message", code);
    memcpy(record, lent, LUFFA_RECORD_BYTES);
}

/* Whether `now` is the record before with the piece added, state words aside where a block was filled. */
static int is_fed(const uint8_t *now, const uint8_t *before, const uint8_t *piece, size_t whole, size_t odd)
{
    size_t held = count_of(before) % 32, rest = (held + whole) % 32, unused = STATE + state_bytes[before[0]];
    uint8_t first[STATE] = {before[0], (uint8_t)odd}, pending[32] = {0};

    for (size_t i = 0; i < rest; i++) {
        /* Of the bytes held and then the piece, the last `rest`. */
        size_t at = held + whole - rest + i;
        pending[i] = at < held ? before[PENDING + at] : piece[at - held];
    }
    if (odd > 0)
        pending[rest] = odd_byte(piece[whole], odd);
    return memcmp(now, first, STATE) == 0 && zeros(now + unused, PENDING - unused) &&
           memcmp(now + PENDING, pending, 32) == 0 && count_of(now) == count_of(before) + whole &&
           (held + whole >= 32 || memcmp(now + STATE, before + STATE, PENDING - STATE) == 0);
}

static void fed(enum form form, uint32_t want, uint8_t *record, size_t record_len, const uint8_t *piece,
                size_t piece_len, size_t odd)
{
    static struct lent r, p;
    uint8_t *lent = lend(&r, record, record_len), *in = lend(&p, piece, piece_len);

    uint32_t got = form == BITS ? luffa_feed_bits(lent, record_len, in, piece_len, odd)
                                : luffa_feed(lent, record_len, in, piece_len);
    check(answered(got, want, &r), "feed of %zu bytes, odd %zu, to a record of %zu: answered %u, wanted %u", piece_len,
          odd, record_len, got, want);
    check(kept(&r, want == LUFFA_DONE ? LUFFA_RECORD_BYTES : 0) && kept(&p, 0),
          "feed of %zu bytes, odd %zu, to a record of %zu, answer %u: wrote outside the record", piece_len, odd,
          record_len, got);
    if (want != LUFFA_DONE)
        return;
    check(is_fed(lent, record, in, piece_len - (odd > 0), odd),
          "feed of %zu bytes, odd %zu, at code %u after %llu: wrong record", piece_len, odd, record[0],
          (unsigned long long)count_of(record));
    memcpy(record, lent, LUFFA_RECORD_BYTES);
}

void feed_bits_call(uint32_t want, uint8_t *record, size_t record_len, const uint8_t *piece, size_t piece_len,
                    size_t odd)
{
    if (odd == 0)
        feed_call(want, record, record_len, piece, piece_len);
    else
        fed(BITS, want, record, record_len, piece, piece_len, odd);
}

void feed_call(uint32_t want, uint8_t *record, size_t record_len, const uint8_t *piece, size_t piece_len)
{
    uint8_t with_bits[2 * LUFFA_RECORD_BYTES];

    memcpy(with_bits, record, record_len);
    fed(BITS, want, with_bits, record_len, piece, piece_len, 0);
    fed(PLAIN, want, record, record_len, piece, piece_len, 0);
    check(memcmp(with_bits, record, record_len) == 0, "two records after a feed of %zu bytes", piece_len);
}

/* Whether `now` is a record of 32 bytes less than the one before, without pending bytes, state words that are used
   aside. */
static int is_back(const uint8_t *now, const uint8_t *before)
{
    size_t unused = STATE + state_bytes[before[0]];

    return memcmp(now, before, STATE) == 0 && zeros(now + unused, COUNT - unused) &&
           count_of(now) == count_of(before) - BLOCK;
}

void back_call(uint32_t want, uint8_t *record, size_t record_len, const uint8_t *block, size_t block_len)
{
    static struct lent r, b;
    uint8_t *lent = lend(&r, record, record_len), *in = lend(&b, block, block_len);

    seal(&b, &r, want);
    uint32_t got = luffa_back(lent, record_len, in, block_len);
    unseal(&b, &r);
    check(answered(got, want, &r), "back over %zu bytes from a record of %zu: answered %u, wanted %u", block_len,
          record_len, got, want);
    check(kept(&r, want == LUFFA_DONE ? LUFFA_RECORD_BYTES : 0) && kept(&b, 0),
          "back over %zu bytes from a record of %zu, answer %u: wrote outside the record", block_len, record_len, got);
    if (want != LUFFA_DONE)
        return;
    check(is_back(lent, record), "back at code %u after %llu: wrong record", record[0],
          (unsigned long long)count_of(record));
    uint8_t again[LUFFA_RECORD_BYTES];
    memcpy(again, lent, sizeof again);
    feed_call(LUFFA_DONE, again, sizeof again, block, block_len);
    check(memcmp(again, record, sizeof again) == 0, "back at code %u after %llu: a feed doesn't lead back", record[0],
          (unsigned long long)count_of(record));
    memcpy(record, lent, LUFFA_RECORD_BYTES);
}

void finish_call(uint32_t want, const uint8_t *record, size_t record_len, size_t out_len, uint8_t *digest)
{
    static struct lent r, o;
    uint8_t *lent = lend(&r, record, record_len), *out = lend(&o, NULL, out_len);
    size_t written = want == LUFFA_DONE ? digest_bytes[record[0]] : 0;

    uint32_t got = luffa_finish(lent, record_len, out, out_len);
    check(answered(got, want, &r), "finish of a record of %zu bytes into %zu: answered %u, wanted %u", record_len, out_len, got,
          want);
    check(kept(&r, 0) && kept(&o, written),
          "finish of a record of %zu bytes into %zu, answer %u: wrote outside the digest", record_len, out_len, got);
    if (digest != NULL)
        memcpy(digest, o.bytes, written);
}

/* ---- The calls over a lent struct. */

void hash_start_call(uint32_t want, size_t code, struct luffa_hash *hash)
{
    static struct lent l;
    uint8_t *lent = lend_aligned(&l, NULL, sizeof *hash, sizeof(uint64_t));

    uint32_t got = luffa_hash_start(code, (struct luffa_hash *)lent);
    check(got == want, "start of a struct at code %zu: answered %u, wanted %u", code, got, want);
    check(kept(&l, want == LUFFA_DONE ? sizeof *hash : 0), "start of a struct at code %zu, answer %u: wrote outside it", code,
          got);
    if (want == LUFFA_DONE)
        memcpy(hash, lent, sizeof *hash);
}

static void hash_fed(enum form form, uint32_t want, struct luffa_hash *hash, const uint8_t *piece, size_t piece_len,
                     size_t odd)
{
    static struct lent l, p;
    uint8_t *lent = lend_aligned(&l, (const uint8_t *)hash, sizeof *hash, sizeof(uint64_t));
    uint8_t *in = lend(&p, piece, piece_len);

    uint32_t got = form == BITS ? luffa_hash_feed_bits((struct luffa_hash *)lent, in, piece_len, odd)
                                : luffa_hash_feed((struct luffa_hash *)lent, in, piece_len);
    check(got == want, "feed of %zu bytes, odd %zu, to a struct at code %zu: answered %u, wanted %u", piece_len, odd,
          hash->code, got, want);
    check(kept(&l, want == LUFFA_DONE ? sizeof *hash : 0) && kept(&p, 0),
          "feed of %zu bytes, odd %zu, to a struct, answer %u: wrote outside it", piece_len, odd, got);
    memcpy(hash, lent, sizeof *hash);
}

void hash_feed_bits_call(uint32_t want, struct luffa_hash *hash, const uint8_t *piece, size_t piece_len, size_t odd)
{
    if (odd == 0)
        hash_feed_call(want, hash, piece, piece_len);
    else
        hash_fed(BITS, want, hash, piece, piece_len, odd);
}

void hash_feed_call(uint32_t want, struct luffa_hash *hash, const uint8_t *piece, size_t piece_len)
{
    struct luffa_hash with_bits = *hash;

    hash_fed(BITS, want, &with_bits, piece, piece_len, 0);
    hash_fed(PLAIN, want, hash, piece, piece_len, 0);
    check(memcmp(&with_bits, hash, sizeof *hash) == 0, "two structs after a feed of %zu bytes", piece_len);
}

void hash_finish_call(uint32_t want, const struct luffa_hash *hash, size_t out_len, uint8_t *digest)
{
    static struct lent l, o;
    uint8_t *lent = lend_aligned(&l, (const uint8_t *)hash, sizeof *hash, sizeof(uint64_t));
    uint8_t *out = lend(&o, NULL, out_len);
    size_t written = want == LUFFA_DONE ? digest_bytes[hash->code] : 0;

    uint32_t got = luffa_hash_finish((const struct luffa_hash *)lent, out, out_len);
    check(got == want, "finish of a struct at code %zu into %zu: answered %u, wanted %u", hash->code, out_len, got, want);
    check(kept(&l, 0) && kept(&o, written), "finish of a struct into %zu, answer %u: wrote outside the digest", out_len, got);
    if (digest != NULL)
        memcpy(digest, o.bytes, written);
}

/* ---- Longer output. */

/* Judges the answer of a call for so many words at a code of what `in` lends, and what it wrote to `o`. */
static void worded(struct luffa_output_answer got, uint64_t want, size_t words, const char *of, size_t code,
                   const struct lent *in, const struct lent *o, uint8_t *output)
{
    uint64_t rounds = want == LUFFA_DONE ? (words + 7) / 8 : 0;
    size_t written = want == LUFFA_DONE ? 4 * words : 0;

    check(got.number == want && got.rounds == rounds,
          "%zu words of a %s of %zu bytes at code %zu into %zu: answered %llu, %llu rounds, wanted %llu, %llu", words,
          of, in->n, code, o->n, (unsigned long long)got.number, (unsigned long long)got.rounds,
          (unsigned long long)want, (unsigned long long)rounds);
    check(kept(in, 0) && kept(o, written),
          "%zu words of a %s of %zu bytes at code %zu into %zu, answer %u: wrote outside the words", words, of, in->n,
          code, o->n, (unsigned)got.number);
    if (output != NULL)
        memcpy(output, o->bytes, written);
}

void output_bits_call(uint64_t want, size_t code, size_t words, const uint8_t *message, size_t message_len, size_t odd,
                      size_t out_len, uint8_t *output)
{
    static struct lent m, o;
    uint8_t with_bits[OUTPUT], without[OUTPUT];

    uint8_t *in = lend(&m, message, message_len), *out = lend(&o, NULL, out_len);
    worded(luffa_output_bits(code, words, in, message_len, odd, out, out_len), want, words,
           odd == 0 ? "message" : "message with odd bits", code, &m, &o, with_bits);
    if (odd == 0) {
        in = lend(&m, message, message_len);
        out = lend(&o, NULL, out_len);
        worded(luffa_output(code, words, in, message_len, out, out_len), want, words, "message", code, &m, &o, without);
        check(want != LUFFA_DONE || memcmp(with_bits, without, 4 * words) == 0,
              "two outputs of %zu words of %zu bytes at code %zu", words, message_len, code);
    }
    if (want == LUFFA_DONE && output != NULL)
        memcpy(output, with_bits, 4 * words);
}

void finish_output_call(uint64_t want, const uint8_t *record, size_t record_len, size_t words, size_t out_len,
                        uint8_t *output)
{
    static struct lent r, o;
    uint8_t *lent = lend(&r, record, record_len), *out = lend(&o, NULL, out_len);

    struct luffa_output_answer got = luffa_finish_output(lent, record_len, words, out, out_len);
    worded(got, want, words, "record", record_len > 0 ? record[0] : 0, &r, &o, output);
}

void hash_finish_output_call(uint64_t want, const struct luffa_hash *hash, size_t words, size_t out_len,
                             uint8_t *output)
{
    static struct lent l, o;
    uint8_t *lent = lend_aligned(&l, (const uint8_t *)hash, sizeof *hash, sizeof(uint64_t));
    uint8_t *out = lend(&o, NULL, out_len);

    struct luffa_output_answer got = luffa_hash_finish_output((const struct luffa_hash *)lent, words, out, out_len);
    worded(got, want, words, "struct", hash->code, &l, &o, output);
}

void blank_rounds(uint8_t *record, size_t words, uint8_t *output)
{
    static const uint8_t blank[32];

    for (size_t i = 0; i < 4 * words; i++) {
        if (i % 32 == 0)
            feed_call(LUFFA_DONE, record, LUFFA_RECORD_BYTES, blank, sizeof blank);
        output[i] = 0;
        for (size_t j = 0; j < state_bytes[record[0]]; j += 32)
            output[i] ^= record[STATE + j + i % 32];
    }
}

void by_hand(size_t code, const uint8_t *message, size_t bits, size_t words, uint8_t *output)
{
    uint8_t record[LUFFA_RECORD_BYTES], padded[96] = {0};

    for (size_t i = 0; i < bits; i++)
        padded[i / 8] |= message[i / 8] & (0x80 >> i % 8);
    padded[bits / 8] |= 0x80 >> bits % 8;
    start_call(LUFFA_DONE, code, sizeof record, record);
    feed_call(LUFFA_DONE, record, sizeof record, padded, 32 * (bits / 256 + 1));
    blank_rounds(record, words, output);
}

/* ---- States by columns. */

/* What a call on columns only reads, and what it writes. */
static struct lent in_read, in_written;

/* Judges the answer of such a call at a code, and what it left; `result` gets what was written. */
static void columned(const char *call, uint32_t got, uint32_t want, size_t code, void *result)
{
    const struct lent *r = &in_read, *o = &in_written;

    unseal(r, o);
    check(got == want, "%s at code %zu, %zu bytes read and %zu written: answered %u, wanted %u", call, code, r->n, o->n,
          got, want);
    check(kept(r, 0) && kept(o, want == LUFFA_DONE ? o->n : 0),
          "%s at code %zu, %zu bytes read and %zu written, answer %u: wrote elsewhere", call, code, r->n, o->n, got);
    if (want == LUFFA_DONE)
        memcpy(result, o->bytes, o->n);
}

void columns_from_words_call(uint32_t want, size_t code, const uint32_t *words, size_t words_len, size_t dump_len,
                             uint8_t *dump)
{
    uint32_t *in = lend_words(&in_read, words, words_len, 0);
    uint8_t *out = lend(&in_written, NULL, dump_len);

    seal(&in_read, &in_written, want);
    columned("columns from words", luffa_columns_from_words(code, in, words_len, out, dump_len), want, code, dump);
}

void words_from_columns_call(uint32_t want, size_t code, const uint8_t *dump, size_t dump_len, size_t words_len,
                             uint32_t *words)
{
    uint8_t *in = lend(&in_read, dump, dump_len);
    uint32_t *out = lend_words(&in_written, NULL, words_len, 0);

    seal(&in_read, &in_written, want);
    columned("words from columns", luffa_words_from_columns(code, in, dump_len, out, words_len), want, code, words);
}

void columns_from_message_call(uint32_t want, const uint8_t *block, size_t block_len, size_t dump_len, uint8_t *dump)
{
    uint8_t *in = lend(&in_read, block, block_len), *out = lend(&in_written, NULL, dump_len);

    seal(&in_read, &in_written, want);
    columned("columns from a message", luffa_columns_from_message(in, block_len, out, dump_len), want, 0, dump);
}

void columns_inject_call(uint32_t want, size_t code, uint8_t *dump, size_t dump_len, const uint8_t *message,
                         size_t message_len)
{
    uint8_t *in = lend(&in_read, message, message_len), *out = lend(&in_written, dump, dump_len);

    seal(&in_read, &in_written, want);
    columned("injection", luffa_columns_inject(code, out, dump_len, in, message_len), want, code, dump);
}

/* ---- Sheets. */

const char *const call_names[9] = {"build",    "change",     "append",     "drop",    "batch",
                                   "close up", "change_own", "append_own", "drop_own"};

int brings_own(enum call call) { return call >= CHANGE_OWN; }

enum call plain(enum call call) { return brings_own(call) ? (enum call)(CHANGE + (call - CHANGE_OWN)) : call; }

const size_t final_rounds[5] = {0, 1, 1, 2, 2};

const size_t too_many[15] = {
    MOST + 1,          MOST + 4,          ((size_t)1 << 16) + 5, (size_t)1 << 32, ((size_t)1 << 32) + 5,
    (size_t)1 << 61,   (size_t)1 << 62,   ((size_t)1 << 61) + 5, (size_t)1 << 63, SIZE_MAX / 40 + 1,
    SIZE_MAX / 40 + 2, SIZE_MAX / 10 + 1, SIZE_MAX - 1023,       SIZE_MAX - 3,    SIZE_MAX,
};

void any_sheet(struct sheet *s, size_t code, size_t n, size_t more)
{
    memset(s, 0, sizeof *s);
    s->code = code;
    s->n = n;
    s->place = n / 2;
    s->sheet_len = RECORD * (n + more);
    s->marks_len = LUFFA_MARKS_FOR(n + more);
    s->record_len = RECORD;
    s->claim_len = digest_bytes[code];
    s->out_len = digest_bytes[code] + 7;
    fill(s->sheet, s->sheet_len);
    fill((uint8_t *)s->marks, 4 * s->marks_len);
    fill(s->record, sizeof s->record);
    fill(s->claim, sizeof s->claim);
    fill(s->records, RECORD * CHANGES);
    s->old_len = n + more;
    fill((uint8_t *)s->old, sizeof *s->old * s->old_len);
    size_t count = n < 3 ? n : 3;
    batch_of(s, count, n / 4, count > 0 ? (n - n / 4) / count : 0);
}

void batch_of(struct sheet *s, size_t count, size_t first, size_t step)
{
    for (size_t i = 0; i < count; i++)
        s->places[i] = first + i * step;
    s->places_len = count;
    s->records_len = RECORD * count;
}

void built_sheet(struct sheet *s, size_t code, size_t n, size_t more)
{
    any_sheet(s, code, n, more);
    sheet_call(LUFFA_DONE, BUILD, s);
    open_own(s);
}

void strike(struct sheet *s, size_t place) { memset(s->sheet + RECORD * place, 0, RECORD); }

void open_own(struct sheet *s)
{
    s->own_n = s->n;
    s->own_len = LUFFA_MARKS_FOR(s->n);
    memcpy(s->own, s->marks, 4 * s->own_len);
}

/* Writes the marks `from` to n / 4 of the sheet: the states of a record that stands at mark m and is fed the rest. */
static void fed_marks(const struct sheet *s, uint8_t *record, size_t m, size_t from, uint32_t *marks)
{
    for (; m <= s->n / 4; m++) {
        for (size_t k = 0; m >= from && k < MARK; k++) {
            const uint8_t *word = record + STATE + 4 * k;
            marks[MARK * m + k] = (uint32_t)word[0] << 24 | (uint32_t)word[1] << 16 | (uint32_t)word[2] << 8 | word[3];
        }
        if (m < s->n / 4)
            luffa_feed(record, LUFFA_RECORD_BYTES, s->sheet + 4 * RECORD * m, 4 * RECORD);
    }
}

/* The true ones. */
static void true_marks(const struct sheet *s, size_t from, uint32_t *marks)
{
    uint8_t record[LUFFA_RECORD_BYTES];

    luffa_start(s->code, record, sizeof record);
    fed_marks(s, record, 0, from, marks);
}

/* A record with the words of mark m as it is found. */
static void at_mark(const struct sheet *s, size_t m, uint8_t *record)
{
    memset(record, 0, LUFFA_RECORD_BYTES);
    record[0] = (uint8_t)s->code;
    for (size_t i = 0; i < state_bytes[s->code]; i++)
        record[STATE + i] = (uint8_t)(s->marks[MARK * m + i / 4] >> (24 - 8 * (i % 4)));
}

void falsify(struct sheet *s, unsigned set)
{
    for (size_t m = 0; set >> m != 0; m++)
        if (set >> m & 1)
            fill((uint8_t *)(s->marks + MARK * m), 4 * MARK);
}

void marks_from(struct sheet *s, size_t m)
{
    uint8_t record[LUFFA_RECORD_BYTES];

    at_mark(s, m, record);
    fed_marks(s, record, m, m + 1, s->marks);
}

uint64_t rounds_from(const struct sheet *s, size_t m)
{
    return RECORD * s->n / 32 + 1 - 5 * m + final_rounds[s->code];
}

void from_mark(const struct sheet *s, size_t m, size_t n, uint8_t *digest)
{
    uint8_t record[LUFFA_RECORD_BYTES];

    at_mark(s, m, record);
    feed_call(LUFFA_DONE, record, sizeof record, s->sheet + 4 * RECORD * m, RECORD * (n - 4 * m));
    finish_call(LUFFA_DONE, record, sizeof record, LUFFA_512_BYTES, digest);
}

/* The empty set is checked, and no more. */
static int only_checks(enum call call, const struct sheet *s) { return call == BATCH && s->places_len == 0; }

size_t closed_up(struct sheet *s)
{
    static const uint8_t struck[RECORD];
    size_t n = s->n, first = n;

    s->n = 0;
    for (size_t place = 0; place < n; place++) {
        const uint8_t *record = s->sheet + RECORD * place;
        if (memcmp(record, struck, RECORD) == 0) {
            first = place < first ? place : first;
            continue;
        }
        memmove(s->sheet + RECORD * s->n, record, RECORD);
        s->old[s->n++] = (uint16_t)place;
    }
    memset(s->sheet + RECORD * s->n, 0, RECORD * (n - s->n));
    memset(s->marks + LUFFA_MARKS_FOR(s->n), 0, 4 * (LUFFA_MARKS_FOR(n) - LUFFA_MARKS_FOR(s->n)));
    return first / 4;
}

/* What the call must leave of the sheet where it is done, and the answer. */
static struct luffa_sheet_where expected(enum call call, struct sheet *s)
{
    size_t n = s->n, q = n / 4, from = 0, written = 0;
    uint64_t check = call == BUILD ? 0 : rounds_from(s, q);

    switch (plain(call)) {
    default:
        break;
    case CHANGE:
        memcpy(s->sheet + RECORD * s->place, s->record, RECORD);
        from = s->place / 4;
        written = from + 1;
        break;
    case APPEND:
        memcpy(s->sheet + RECORD * n, s->record, RECORD);
        s->n = n + 1;
        from = q;
        written = q + 1;
        break;
    case DROP:
        memset(s->sheet + RECORD * (n - 1), 0, RECORD);
        if (n % 4 == 0)
            memset(s->marks + MARK * q, 0, 4 * MARK);
        s->n = n - 1;
        from = s->n / 4;
        written = from + 1;
        break;
    case BATCH:
        for (size_t i = 0; i < s->places_len; i++)
            memcpy(s->sheet + RECORD * s->places[i], s->records + RECORD * i, RECORD);
        from = only_checks(call, s) ? q : s->places[0] / 4;
        written = from + 1;
        break;
    case CLOSE_UP:
        from = closed_up(s);
        written = from + 1;
        break;
    }
    true_marks(s, written, s->marks);
    luffa_digest(s->code, s->sheet, RECORD * s->n, s->out, digest_bytes[s->code]);
    return (struct luffa_sheet_where){
        .count = s->n, .rounds = check + (only_checks(call, s) ? 0 : rounds_from(s, from))};
}

/* What a stale call must answer: with own marks, where they and those of the sheet first differ, in the words that the
   code uses. */
static struct luffa_sheet_where stale(uint64_t want, enum call call, const struct sheet *s)
{
    struct luffa_sheet_where wanted = {.number = want, .count = s->n, .rounds = s->n % 4 + 1 + final_rounds[s->code]};
    size_t shared = brings_own(call) ? (s->n < s->own_n ? s->n : s->own_n) / 4 : 0;

    while (wanted.kind == LUFFA_WHERE_SAME && wanted.pairs < shared) {
        size_t m = ++wanted.pairs;
        if (memcmp(s->marks + MARK * m, s->own + MARK * m, state_bytes[s->code]) != 0) {
            wanted.kind = LUFFA_WHERE_GROUP;
            wanted.group = m - 1;
        }
    }
    return wanted;
}

/* What the sheet calls are lent. */
static struct lent in_sheet, in_marks, in_record, in_places, in_records, in_claim, in_own, in_old, in_out;

static void protect_sheet(int protection)
{
    protect(in_sheet.room, in_sheet.size, protection);
    protect(in_marks.room, in_marks.size, protection);
}

/* The list that only a close up is lent. Where it is done, what lies behind n entries is hidden in every other call. */
static uint16_t *lend_list(uint64_t want, enum call call, const struct sheet *s)
{
    const uint8_t *list = (const uint8_t *)s->old;
    size_t entries = call == CLOSE_UP ? s->old_len : 0;
    int hidden = want == LUFFA_DONE && entries > s->n && any_byte() % 2 == 0;

    return hidden ? (void *)lend_last(&in_old, list, sizeof *s->old * s->n)
                  : (void *)lend_aligned(&in_old, list, sizeof *s->old * entries, sizeof *s->old);
}

/* The answer of a call without own marks. */
static struct luffa_sheet_where nowhere(struct luffa_sheet_answer got)
{
    return (struct luffa_sheet_where){.number = got.number, .count = got.count, .rounds = got.rounds};
}

/* Where nothing is to be written, sheet and marks can't be, nor the list: always if the call is done, and in one of 32
   refusals, as valgrind takes its time over pages. Own marks can't be in one of 32 calls that bring them. */
static struct luffa_sheet_where lent_call(uint64_t want, enum call call, const struct sheet *s)
{
    int sealed = want == LUFFA_DONE ? only_checks(call, s) : any_byte() % 32 == 0;
    int own_sealed = brings_own(call) && any_byte() % 32 == 0;
    uint8_t *sheet = lend(&in_sheet, s->sheet, s->sheet_len), *record = lend(&in_record, s->record, s->record_len);
    uint32_t *marks = lend_words(&in_marks, s->marks, s->marks_len, s->marks_hidden);
    size_t *places = (void *)lend_aligned(&in_places, (const uint8_t *)s->places, 8 * s->places_len, 8);
    uint8_t *records = lend(&in_records, s->records, s->records_len);
    uint32_t *own = brings_own(call) ? lend_words(&in_own, s->own, s->own_len, s->own_hidden)
                                     : lend_words(&in_own, s->own, 0, 0);
    uint16_t *old = lend_list(want, call, s);
    uint8_t *claim = lend(&in_claim, s->claim, s->claim_len), *out = lend(&in_out, NULL, s->out_len);
    struct luffa_sheet_where got = {0};

    if (sealed) {
        protect_sheet(PROT_READ);
        protect(in_old.room, in_old.size, PROT_READ);
    }
    if (own_sealed)
        protect(in_own.room, in_own.size, PROT_READ);
    switch (call) {
    case BUILD:
        got = nowhere(luffa_sheet_build(s->code, sheet, s->sheet_len, s->n, marks, s->marks_len, out, s->out_len));
        break;
    case CHANGE:
        got = nowhere(luffa_sheet_change(s->code, sheet, s->sheet_len, s->n, marks, s->marks_len, s->place, record,
                                         s->record_len, claim, s->claim_len, out, s->out_len));
        break;
    case APPEND:
        got = nowhere(luffa_sheet_append(s->code, sheet, s->sheet_len, s->n, marks, s->marks_len, record, s->record_len,
                                         claim, s->claim_len, out, s->out_len));
        break;
    case DROP:
        got = nowhere(luffa_sheet_drop(s->code, sheet, s->sheet_len, s->n, marks, s->marks_len, claim, s->claim_len,
                                       out, s->out_len));
        break;
    case BATCH:
        got = nowhere(luffa_sheet_batch(s->code, sheet, s->sheet_len, s->n, marks, s->marks_len, places, s->places_len,
                                        records, s->records_len, claim, s->claim_len, out, s->out_len));
        break;
    case CLOSE_UP:
        got = nowhere(luffa_sheet_close_up(s->code, sheet, s->sheet_len, s->n, marks, s->marks_len, claim, s->claim_len,
                                           old, s->old_len, out, s->out_len));
        break;
    case CHANGE_OWN:
        got = luffa_sheet_change_own(s->code, sheet, s->sheet_len, s->n, marks, s->marks_len, s->place, record,
                                     s->record_len, claim, s->claim_len, s->own_n, own, s->own_len, out, s->out_len);
        break;
    case APPEND_OWN:
        got = luffa_sheet_append_own(s->code, sheet, s->sheet_len, s->n, marks, s->marks_len, record, s->record_len,
                                     claim, s->claim_len, s->own_n, own, s->own_len, out, s->out_len);
        break;
    case DROP_OWN:
        got = luffa_sheet_drop_own(s->code, sheet, s->sheet_len, s->n, marks, s->marks_len, claim, s->claim_len,
                                   s->own_n, own, s->own_len, out, s->out_len);
        break;
    }
    if (sealed) {
        protect_sheet(PROT_READ | PROT_WRITE);
        protect(in_old.room, in_old.size, PROT_READ | PROT_WRITE);
    }
    if (own_sealed)
        protect(in_own.room, in_own.size, PROT_READ | PROT_WRITE);
    return got;
}

/* Judges the answer of a call on n records, and that `s` is what it left, where done with the digest in out. */
static void judge(struct luffa_sheet_where got, struct luffa_sheet_where wanted, enum call call, size_t n,
                  const struct sheet *s)
{
    size_t written = wanted.number == LUFFA_DONE ? digest_bytes[s->code] : 0;
    int read_only = kept(&in_record, 0) && kept(&in_places, 0) && kept(&in_records, 0) && kept(&in_claim, 0) &&
                    kept(&in_own, 0);
    const char *wrong = memcmp(&got, &wanted, sizeof got) != 0       ? "wrong answer"
                        : !left(&in_sheet, s->sheet)                 ? "wrong sheet"
                        : !left(&in_marks, s->marks)                 ? "wrong marks"
                        : !left(&in_old, s->old)                     ? "wrong list"
                        : !read_only || !kept(&in_out, written)      ? "wrote outside the digest"
                        : memcmp(in_out.bytes, s->out, written) != 0 ? "wrong digest"
                                                                     : NULL;

    check(wrong == NULL,
          "%s of %zu records at code %zu, place %zu, or %zu places, own %zu: %s, answered %llu, %llu, %llu, kind %llu, "
          "group %llu, %llu pairs, wanted %llu, %llu, %llu, kind %llu, group %llu, %llu pairs",
          call_names[call], n, s->code, s->place, s->places_len, s->own_n, wrong, (unsigned long long)got.number,
          (unsigned long long)got.count, (unsigned long long)got.rounds, (unsigned long long)got.kind,
          (unsigned long long)got.group, (unsigned long long)got.pairs, (unsigned long long)wanted.number,
          (unsigned long long)wanted.count, (unsigned long long)wanted.rounds, (unsigned long long)wanted.kind,
          (unsigned long long)wanted.group, (unsigned long long)wanted.pairs);
}

struct luffa_sheet_where where_call(uint64_t want, enum call call, struct sheet *s)
{
    struct luffa_sheet_where got = lent_call(want, call, s), wanted = {.number = want, .count = s->n};
    size_t n = s->n;

    if (want == LUFFA_STALE || want == LUFFA_STALE_TAIL)
        wanted = stale(want, call, s);
    if (want == LUFFA_DONE)
        wanted = expected(call, s);
    judge(got, wanted, call, n, s);
    if (want == LUFFA_DONE)
        memcpy(s->claim, s->out, digest_bytes[s->code]);
    return got;
}

struct luffa_sheet_answer sheet_call(uint64_t want, enum call call, struct sheet *s)
{
    struct luffa_sheet_where got = where_call(want, call, s);

    return (struct luffa_sheet_answer){got.number, got.count, got.rounds};
}

void found_call(uint64_t rounds, enum call call, const struct sheet *s, const struct sheet *after)
{
    judge(lent_call(LUFFA_DONE, call, s), (struct luffa_sheet_where){.count = after->n, .rounds = rounds}, call, s->n,
          after);
}

void as_plain_call(enum call call, const struct sheet *s)
{
    static struct sheet after;
    struct luffa_sheet_where got = lent_call(LUFFA_DONE, plain(call), s);

    after = *s;
    after.n = got.count;
    memcpy(after.sheet, in_sheet.bytes, in_sheet.n);
    memcpy(after.marks, in_marks.bytes, in_marks.n);
    memcpy(after.out, in_out.bytes, digest_bytes[s->code]);
    found_call(got.rounds, call, s, &after);
}

/* What mending must leave of the marks, and the answer. Where they are lent, the pages of the wrong ones are made
   such that they can be written. */
static struct luffa_mend_answer mended(struct sheet *s, uint32_t *lent)
{
    static uint32_t found[COUNT_OF(s->marks)];
    struct luffa_mend_answer answer = {LUFFA_DONE, 0, 0, 5 * (s->n / 4)};

    memcpy(found, s->marks, sizeof found);
    true_marks(s, 0, s->marks);
    for (size_t m = s->n / 4 + 1; m-- > 0;)
        if (memcmp(found + MARK * m, s->marks + MARK * m, 4 * MARK) != 0) {
            protect(lent + MARK * m, 4 * MARK, PROT_READ | PROT_WRITE);
            answer.wrong++;
            answer.first = m;
        }
    return answer;
}

struct luffa_mend_answer mend_call(uint64_t want, struct sheet *s)
{
    uint8_t *sheet = lend(&in_sheet, s->sheet, s->sheet_len);
    uint32_t *marks = (void *)lend_aligned(&in_marks, (uint8_t *)s->marks, 4 * s->marks_len, 4);
    struct luffa_mend_answer wanted = {want, 0, 0, 0};

    if (want == LUFFA_DONE) {
        protect_sheet(PROT_READ);
        wanted = mended(s, marks);
    }
    struct luffa_mend_answer got = luffa_sheet_mend(s->code, sheet, s->sheet_len, s->n, marks, s->marks_len);
    protect_sheet(PROT_READ | PROT_WRITE);

    check(memcmp(&got, &wanted, sizeof got) == 0,
          "mend of %zu records at code %zu: answered %llu, %llu wrong, first %llu, %llu rounds, wanted %llu, %llu, "
          "%llu, %llu",
          s->n, s->code, (unsigned long long)got.number, (unsigned long long)got.wrong, (unsigned long long)got.first,
          (unsigned long long)got.rounds, (unsigned long long)wanted.number, (unsigned long long)wanted.wrong,
          (unsigned long long)wanted.first, (unsigned long long)wanted.rounds);
    check(kept(&in_sheet, 0) && left(&in_marks, s->marks),
          "mend of %zu records at code %zu, answer %u: wrong marks, or a written sheet", s->n, s->code,
          (unsigned)got.number);
    return got;
}

/* ---- What the records of a sheet mean. */

void put(uint8_t *sheet, size_t place, size_t at, size_t bytes, uint32_t value)
{
    for (size_t i = bytes; i-- > 0; value >>= 8)
        sheet[RECORD * place + at + i] = (uint8_t)value;
}

void put_well(uint8_t *sheet, size_t place, uint32_t kind, uint32_t number, uint32_t rate)
{
    memset(sheet + RECORD * place, 0, LUFFA_WELL_NOTE);
    put(sheet, place, NUMBER, number);
    put(sheet, place, KIND, kind);
    put(sheet, place, RATE, rate);
    fill(sheet + RECORD * place + LUFFA_WELL_NOTE, RECORD - LUFFA_WELL_NOTE);
}

void add_link(uint8_t *sheet, size_t place, uint32_t injector, uint32_t share)
{
    size_t k = sheet[RECORD * place + LUFFA_WELL_LINK_COUNT]++;

    put(sheet, place, INJECTOR(k), injector);
    put(sheet, place, SHARE(k), share);
}

void sound_sheet(uint8_t *sheet)
{
    put_well(sheet, 0, LUFFA_PRODUCER, 10, 65536);
    add_link(sheet, 0, 20, 600);
    add_link(sheet, 0, 21, 400);
    put_well(sheet, 1, LUFFA_INJECTOR, 20, 0);
    put_well(sheet, 2, LUFFA_PRODUCER, 11, 0);
    put_well(sheet, 3, LUFFA_PRODUCER, 12, LUFFA_RATE_MOST);
    add_link(sheet, 3, 65535, 1);
    add_link(sheet, 3, 20, 1);
    add_link(sheet, 3, 21, 1);
    add_link(sheet, 3, 22, 997);
    put_well(sheet, 4, LUFFA_INJECTOR, 21, LUFFA_RATE_MOST);
    put_well(sheet, 5, LUFFA_PRODUCER, 1, 1);
    add_link(sheet, 5, 22, LUFFA_SHARES_TOTAL);
    put_well(sheet, 6, LUFFA_INJECTOR, 22, 300);
    put_well(sheet, 7, LUFFA_INJECTOR, 65535, 7);
    put_well(sheet, 8, LUFFA_INJECTOR, 256 * 20, 0);
}

const struct edit faults[8] = {
    {2, NUMBER, 0}, {2, KIND, 3}, {2, RATE, 1}, {4, RATE, 100001}, {0, INJECTOR(1), 23}, {5, SHARE(0), 999},
    {8, SHARE(3), 1}, {2, NUMBER, 10},
};

void put_among_struck(uint8_t *sheet, size_t n)
{
    memset(sheet + RECORD * 2 * n, 0, RECORD);
    for (size_t place = n; place-- > 0;) {
        memmove(sheet + RECORD * (2 * place + 1), sheet + RECORD * place, RECORD);
        memset(sheet + RECORD * 2 * place, 0, RECORD);
    }
}

void plan_call(struct luffa_content_answer want, const uint8_t *sheet, size_t sheet_len, size_t n)
{
    static struct lent l;
    uint8_t *lent = lend(&l, sheet, sheet_len);

    struct luffa_content_answer got = luffa_plan_check(lent, sheet_len, n);
    check(got.number == want.number && got.rule == want.rule && got.place == want.place,
          "check of %zu records in %zu bytes: answered %llu, rule %llu at %llu, wanted %llu, rule %llu at %llu", n,
          sheet_len, (unsigned long long)got.number, (unsigned long long)got.rule, (unsigned long long)got.place,
          (unsigned long long)want.number, (unsigned long long)want.rule, (unsigned long long)want.place);
    check(kept(&l, 0), "check of %zu records in %zu bytes: wrote to the sheet", n, sheet_len);
}

void brine_call(struct luffa_brine_answer want, const struct batch *b)
{
    static struct lent in_sheets, in_counts, in_intake, in_spare;
    uint8_t *sheets = lend(&in_sheets, b->sheets, b->sheets_len);
    size_t *counts = (void *)lend_aligned(&in_counts, (const uint8_t *)b->counts, 8 * b->counts_len, 8);
    uint64_t *intake = (void *)lend_aligned(&in_intake, NULL, 8 * b->intake_len, 8);
    int64_t *spare = (void *)lend_aligned(&in_spare, NULL, 8 * b->spare_len, 8);
    size_t records = 0;

    for (size_t k = 0; want.number == LUFFA_DONE && k < b->counts_len; k++)
        records += b->counts[k];
    struct luffa_brine_answer got =
        luffa_plan_brine(sheets, b->sheets_len, counts, b->counts_len, intake, b->intake_len, spare, b->spare_len);
    check(memcmp(&got, &want, sizeof got) == 0,
          "brine of %zu sheets in %zu bytes, lists of %zu and %zu: answered %llu, %llu sound, %llu faulted, %llu in, "
          "%llu overloaded, wanted %llu, %llu, %llu, %llu, %llu",
          b->counts_len, b->sheets_len, b->intake_len, b->spare_len, (unsigned long long)got.number,
          (unsigned long long)got.sound, (unsigned long long)got.faulted, (unsigned long long)got.intake,
          (unsigned long long)got.overloaded, (unsigned long long)want.number, (unsigned long long)want.sound,
          (unsigned long long)want.faulted, (unsigned long long)want.intake, (unsigned long long)want.overloaded);
    for (size_t p = 0; p < records; p++)
        check(intake[p] == b->intake[p] && spare[p] == b->spare[p],
              "brine of %zu sheets, record %zu: intake %llu, spare %lld, wanted %llu, %lld", b->counts_len, p,
              (unsigned long long)intake[p], (long long)spare[p], (unsigned long long)b->intake[p],
              (long long)b->spare[p]);
    check(kept(&in_sheets, 0) && kept(&in_counts, 0) && kept(&in_intake, 8 * records) && kept(&in_spare, 8 * records),
          "brine of %zu sheets in %zu bytes, lists of %zu and %zu, answer %u: wrote outside its places", b->counts_len,
          b->sheets_len, b->intake_len, b->spare_len, (unsigned)got.number);
}

/* Where done, the bytes after the marks are hidden in every other call. In one of 32 the sheet can't be written, and
   where refused the marks can't either. */
void reach_call(uint32_t want, const struct search *s, const uint8_t *marks)
{
    static struct lent in_sheet, in_reached;
    size_t written = want == LUFFA_DONE ? s->n : 0;
    int sealed = any_byte() % 32 == 0, hidden = want == LUFFA_DONE && any_byte() % 2 == 0;
    uint8_t *sheet = lend(&in_sheet, s->sheet, s->sheet_len);
    uint8_t *reached = hidden ? lend_last(&in_reached, NULL, s->n) : lend(&in_reached, NULL, s->reached_len);

    if (sealed)
        protect(in_sheet.room, in_sheet.size, PROT_READ);
    if (sealed && want != LUFFA_DONE)
        protect(in_reached.room, in_reached.size, PROT_READ);
    uint32_t got = luffa_plan_reach(sheet, s->sheet_len, s->n, s->well, s->hops, reached, s->reached_len);
    if (sealed) {
        protect(in_sheet.room, in_sheet.size, PROT_READ | PROT_WRITE);
        protect(in_reached.room, in_reached.size, PROT_READ | PROT_WRITE);
    }

    check(got == want, "reach from well %zu in %zu hops, of %zu records in %zu bytes, into %zu: answered %u, wanted %u",
          s->well, s->hops, s->n, s->sheet_len, s->reached_len, got, want);
    for (size_t p = 0; p < written; p++)
        check(reached[p] == marks[p], "reach from well %zu in %zu hops, of %zu records: place %zu has %u, wanted %u",
              s->well, s->hops, s->n, p, reached[p], marks[p]);
    check(kept(&in_sheet, 0) && kept(&in_reached, written),
          "reach from well %zu in %zu hops, of %zu records into %zu bytes, answer %u: wrote outside its marks", s->well,
          s->hops, s->n, s->reached_len, got);
}
