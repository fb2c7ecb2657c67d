/* Luffa 2.0.1 in C with SSE2 intrinsics and no step constants stored. A block is two vectors of four words, in which it is injected; for the steps
   four blocks lie as lanes in eight vectors, and the generator's t_l and t_r (4.4) in two more, which are turned twice a step. At w = 5 the fifth
   block is stepped beside them, word by word, with its generator in one number. */
#include "sse2.h"
#include "plain.h"

#include <emmintrin.h>

enum { LANES = 4 };

/* 4.4: the generator's polynomial less its heading term; B-1: c_L of blocks 0 to 3, c_R of them, and c_L || c_R of block 4. */
static const uint64_t MASK = 0xc4d6496c55c61c8d, START_4 = 0x9a025047cff2a940;
static const uint32_t START_L[LANES] = {0x181cca53, 0x5b6f0876, 0x7e106ce9, 0xbb62f364};
static const uint32_t START_R[LANES] = {0x380cde06, 0xf16f8594, 0x38979cb0, 0x92e93c29};

struct block {
    __m128i low, high; /* a_0 to a_3, a_4 to a_7 */
};

struct lanes {
    __m128i a[8], l, r;
};

struct words {
    uint32_t a[8];
    uint64_t t;
};

static inline __m128i rotl_lanes(__m128i x, int n) { return _mm_or_si128(_mm_slli_epi32(x, n), _mm_srli_epi32(x, 32 - n)); }

/* -- The message injection -- */

static inline struct block plus(struct block a, struct block b)
{
    return (struct block){_mm_xor_si128(a.low, b.low), _mm_xor_si128(a.high, b.high)};
}

/* 3.2: multiplication by 0x02: the words move up by one, and a_7 goes into words 0, 1, 3 and 4. */
static inline struct block doubled(struct block a)
{
    __m128i last = _mm_shuffle_epi32(a.high, 0xff);
    __m128i low = _mm_or_si128(_mm_slli_si128(a.low, 4), _mm_srli_si128(a.high, 12));
    __m128i high = _mm_or_si128(_mm_slli_si128(a.high, 4), _mm_srli_si128(a.low, 12));

    return (struct block){_mm_xor_si128(low, _mm_and_si128(last, _mm_set_epi32(-1, 0, -1, 0))),
                          _mm_xor_si128(high, _mm_and_si128(last, _mm_set_epi32(0, 0, 0, -1)))};
}

/* 2.2: four words, first byte highest. */
static inline __m128i load_words(const uint8_t *x)
{
    __m128i v = _mm_loadu_si128((const __m128i *)x);

    v = _mm_or_si128(_mm_slli_epi16(v, 8), _mm_srli_epi16(v, 8));
    return _mm_shufflehi_epi16(_mm_shufflelo_epi16(v, 0xb1), 0xb1);
}

/* E-1 to E-3. */
static inline void inject(size_t w, struct block h[MOST_BLOCKS], const uint8_t *x)
{
    struct block sum = h[0], m = {load_words(x), load_words(x + 16)};

    for (size_t j = 1; j < w; j++)
        sum = plus(sum, h[j]);
    sum = doubled(sum);
    for (size_t j = 0; j < w; j++)
        h[j] = plus(h[j], sum);
    if (w == 5) {
        struct block first = h[0];
        for (size_t j = 0; j < 4; j++)
            h[j] = plus(doubled(h[j]), h[j + 1]);
        h[4] = plus(doubled(h[4]), first);
    }
    if (w > 3) {
        struct block last = h[w - 1];
        for (size_t j = w - 1; j > 0; j--)
            h[j] = plus(doubled(h[j]), h[j - 1]);
        h[0] = plus(doubled(h[0]), last);
    }
    for (size_t j = 0; j < w; j++) {
        h[j] = plus(h[j], m);
        m = doubled(m);
    }
}

/* -- The steps -- */

/* Appendix D over lanes. */
static inline void sub_crumb_lanes(__m128i *a0, __m128i *a1, __m128i *a2, __m128i *a3)
{
    const __m128i ones = _mm_set1_epi32(-1);
    __m128i r0 = *a0, r1 = *a1, r2 = *a2, r3 = *a3, r4 = r0;

    r0 = _mm_or_si128(r0, r1);
    r2 = _mm_xor_si128(r2, r3);
    r1 = _mm_xor_si128(r1, ones);
    r0 = _mm_xor_si128(r0, r3);
    r3 = _mm_and_si128(r3, r4);
    r1 = _mm_xor_si128(r1, r3);
    r3 = _mm_xor_si128(r3, r2);
    r2 = _mm_and_si128(r2, r0);
    r0 = _mm_xor_si128(r0, ones);
    r2 = _mm_xor_si128(r2, r1);
    r1 = _mm_or_si128(r1, r3);
    r4 = _mm_xor_si128(r4, r1);
    r3 = _mm_xor_si128(r3, r2);
    r2 = _mm_and_si128(r2, r1);
    r1 = _mm_xor_si128(r1, r0);

    *a0 = r4, *a1 = r1, *a2 = r2, *a3 = r3;
}

/* 4.3 over lanes. */
static inline void mix_word_lanes(__m128i *xk, __m128i *xk4)
{
    __m128i y = *xk, z = _mm_xor_si128(*xk4, y);

    y = _mm_xor_si128(rotl_lanes(y, 2), z);
    z = _mm_xor_si128(rotl_lanes(z, 14), y);
    y = _mm_xor_si128(rotl_lanes(y, 10), z);

    *xk = y, *xk4 = rotl_lanes(z, 1);
}

/* 4.4: one application of the generator, by the pseudo code over lanes and by the equations; t_r is then a constant. */
static inline __m128i turn_lanes(struct lanes *v)
{
    const __m128i mask_l = _mm_set1_epi32((int)(MASK >> 32)), mask_r = _mm_set1_epi32((int)MASK);
    __m128i c = _mm_srai_epi32(v->l, 31), r = v->r;

    v->r = _mm_xor_si128(_mm_or_si128(_mm_slli_epi32(v->l, 1), _mm_srli_epi32(r, 31)), _mm_and_si128(c, mask_l));
    v->l = _mm_xor_si128(_mm_slli_epi32(r, 1), _mm_and_si128(c, mask_r));
    return v->r;
}

static inline uint32_t turn(uint64_t *t)
{
    uint64_t f = *t << 1 ^ (-(*t >> 63) & MASK);

    *t = f << 32 | f >> 32;
    return (uint32_t)*t;
}

/* 4.1: a step on four blocks, and one on the fifth. */
static inline void step_lanes(struct lanes *v)
{
    __m128i *a = v->a;

    sub_crumb_lanes(&a[0], &a[1], &a[2], &a[3]);
    sub_crumb_lanes(&a[5], &a[6], &a[7], &a[4]);
    for (int k = 0; k < 4; k++)
        mix_word_lanes(&a[k], &a[k + 4]);
    a[0] = _mm_xor_si128(a[0], turn_lanes(v));
    a[4] = _mm_xor_si128(a[4], turn_lanes(v));
}

static inline void step_words(struct words *b)
{
    uint32_t *a = b->a;

    sub_crumb(&a[0], &a[1], &a[2], &a[3]);
    sub_crumb(&a[5], &a[6], &a[7], &a[4]);
    for (int k = 0; k < 4; k++)
        mix_word(&a[k], &a[k + 4]);
    a[0] ^= turn(&b->t);
    a[4] ^= turn(&b->t);
}

/* Four vectors of four words, rows to columns. */
static inline void transpose(__m128i *x, __m128i *y, __m128i *z, __m128i *u)
{
    __m128i xy = _mm_unpacklo_epi32(*x, *y), zu = _mm_unpacklo_epi32(*z, *u);
    __m128i xy_high = _mm_unpackhi_epi32(*x, *y), zu_high = _mm_unpackhi_epi32(*z, *u);

    *x = _mm_unpacklo_epi64(xy, zu), *y = _mm_unpackhi_epi64(xy, zu);
    *z = _mm_unpacklo_epi64(xy_high, zu_high), *u = _mm_unpackhi_epi64(xy_high, zu_high);
}

/* 4.1 and 4.5: Q_j on the first w blocks. A lane that w doesn't use is stepped with the others and goes nowhere. */
static inline void permute(size_t w, struct block h[MOST_BLOCKS])
{
    struct lanes v;
    struct words e = {.t = START_4};

    h[1].high = rotl_lanes(h[1].high, 1);
    h[2].high = rotl_lanes(h[2].high, 2);
    h[3].high = rotl_lanes(h[3].high, 3);
    for (int j = 0; j < LANES; j++)
        v.a[j] = h[j].low, v.a[4 + j] = h[j].high;
    transpose(&v.a[0], &v.a[1], &v.a[2], &v.a[3]);
    transpose(&v.a[4], &v.a[5], &v.a[6], &v.a[7]);
    v.l = _mm_loadu_si128((const __m128i *)START_L);
    v.r = _mm_loadu_si128((const __m128i *)START_R);
    if (w > LANES) {
        _mm_storeu_si128((__m128i *)e.a, h[LANES].low);
        _mm_storeu_si128((__m128i *)(e.a + 4), rotl_lanes(h[LANES].high, 4));
    }

    for (int r = 0; r < 8; r++) {
        step_lanes(&v);
        if (w > LANES)
            step_words(&e);
    }

    transpose(&v.a[0], &v.a[1], &v.a[2], &v.a[3]);
    transpose(&v.a[4], &v.a[5], &v.a[6], &v.a[7]);
    for (int j = 0; j < LANES; j++)
        h[j] = (struct block){v.a[j], v.a[4 + j]};
    if (w > LANES)
        h[LANES] = (struct block){_mm_loadu_si128((const __m128i *)e.a), _mm_loadu_si128((const __m128i *)(e.a + 4))};
}

/* 3.2: one loop for each w, so that the compiler knows w. */
static inline void rounds_of(size_t w, uint32_t state[MOST_BLOCKS][8], const uint8_t *x, size_t blocks)
{
    struct block h[MOST_BLOCKS];

    memcpy(h, state, sizeof h);
    for (; blocks > 0; blocks--, x += BLOCK_BYTES) {
        inject(w, h, x);
        permute(w, h);
    }
    memcpy(state, h, sizeof h);
}

static void rounds(size_t w, uint32_t h[MOST_BLOCKS][8], const uint8_t *x, size_t blocks)
{
    switch (w) {
    case 3: rounds_of(3, h, x, blocks); break;
    case 4: rounds_of(4, h, x, blocks); break;
    default: rounds_of(5, h, x, blocks); break;
    }
}

#define OUTPUT_BITS sse2_output_bits
#include "message.h"

uint32_t sse2_digest(size_t code, const uint8_t *message, size_t message_len, uint8_t *out, size_t out_len)
{
    return code < 1 || code > 4 ? 1 : sse2_output_bits(code, digest_words(code), message, message_len, 0, out, out_len);
}
