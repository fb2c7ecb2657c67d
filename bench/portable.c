/* Luffa 2.0.1 in portable C, the baseline of the benchmark: what plain.h has, and the step constants stored. Words are uint32_t, and every vector
   instruction in it is the compiler's own finding. */
#include "portable.h"
#include "plain.h"

/* 4.4: at block j and step r, the constants of words 0 and 4. These are the generator's values; appendix B prints the second of block 1,
   step 5 with nine digits. */
static const uint32_t STEP_CONST[MOST_BLOCKS][8][2] = {
    {{0x303994a6, 0xe0337818}, {0xc0e65299, 0x441ba90d}, {0x6cc33a12, 0x7f34d442}, {0xdc56983e, 0x9389217f},
     {0x1e00108f, 0xe5a8bce6}, {0x7800423d, 0x5274baf4}, {0x8f5b7882, 0x26889ba7}, {0x96e1db12, 0x9a226e9d}},
    {{0xb6de10ed, 0x01685f3d}, {0x70f47aae, 0x05a17cf4}, {0x0707a3d4, 0xbd09caca}, {0x1c1e8f51, 0xf4272b28},
     {0x707a3d45, 0x144ae5cc}, {0xaeb28562, 0xfaa7ae2b}, {0xbaca1589, 0x2e48f1c1}, {0x40a46f3e, 0xb923c704}},
    {{0xfc20d9d2, 0xe25e72c1}, {0x34552e25, 0xe623bb72}, {0x7ad8818f, 0x5c58a4a4}, {0x8438764a, 0x1e38e2e7},
     {0xbb6de032, 0x78e38b9d}, {0xedb780c8, 0x27586719}, {0xd9847356, 0x36eda57f}, {0xa2c78434, 0x703aace7}},
    {{0xb213afa5, 0xe028c9bf}, {0xc84ebe95, 0x44756f91}, {0x4e608a22, 0x7e8fce32}, {0x56d858fe, 0x956548be},
     {0x343b138f, 0xfe191be2}, {0xd0ec4e3d, 0x3cb226e5}, {0x2ceb4882, 0x5944a28e}, {0xb3ad2208, 0xa1c4c355}},
    {{0xf0d2e9e3, 0x5090d577}, {0xac11d7fa, 0x2d1925ab}, {0x1bcb66f2, 0xb46496ac}, {0x6f2d9bc9, 0xd1925ab0},
     {0x78602649, 0x29131ab6}, {0x8edae952, 0x0fc053c3}, {0x3b6ba548, 0x3f014f0c}, {0xedae9520, 0xfc053c31}},
};

/* 4.1 and 4.5: Q_j. The eight words stand in locals, so that they stay in registers from the tweak to the last step. */
static inline void permute(uint32_t h[8], unsigned j)
{
    uint32_t a0 = h[0], a1 = h[1], a2 = h[2], a3 = h[3];
    uint32_t a4 = rotl(h[4], j), a5 = rotl(h[5], j), a6 = rotl(h[6], j), a7 = rotl(h[7], j);

    for (int r = 0; r < 8; r++) {
        sub_crumb(&a0, &a1, &a2, &a3);
        sub_crumb(&a5, &a6, &a7, &a4);
        mix_word(&a0, &a4);
        mix_word(&a1, &a5);
        mix_word(&a2, &a6);
        mix_word(&a3, &a7);
        a0 ^= STEP_CONST[j][r][0];
        a4 ^= STEP_CONST[j][r][1];
    }

    h[0] = a0; h[1] = a1; h[2] = a2; h[3] = a3;
    h[4] = a4; h[5] = a5; h[6] = a6; h[7] = a7;
}

/* 3.2: the rounds of whole message blocks, one function for each w, so that the compiler knows w. */
static void rounds3(uint32_t h[3][8], const uint8_t *x, size_t blocks)
{
    for (; blocks > 0; blocks--, x += BLOCK_BYTES) {
        uint32_t m[8];
        load(m, x);
        inject3(h, m);
        permute(h[0], 0);
        permute(h[1], 1);
        permute(h[2], 2);
    }
}

static void rounds4(uint32_t h[4][8], const uint8_t *x, size_t blocks)
{
    for (; blocks > 0; blocks--, x += BLOCK_BYTES) {
        uint32_t m[8];
        load(m, x);
        inject4(h, m);
        permute(h[0], 0);
        permute(h[1], 1);
        permute(h[2], 2);
        permute(h[3], 3);
    }
}

static void rounds5(uint32_t h[5][8], const uint8_t *x, size_t blocks)
{
    for (; blocks > 0; blocks--, x += BLOCK_BYTES) {
        uint32_t m[8];
        load(m, x);
        inject5(h, m);
        permute(h[0], 0);
        permute(h[1], 1);
        permute(h[2], 2);
        permute(h[3], 3);
        permute(h[4], 4);
    }
}

static void rounds(size_t w, uint32_t h[MOST_BLOCKS][8], const uint8_t *x, size_t blocks)
{
    switch (w) {
    case 3: rounds3(h, x, blocks); break;
    case 4: rounds4(h, x, blocks); break;
    default: rounds5(h, x, blocks); break;
    }
}

#define OUTPUT_BITS portable_output_bits
#include "message.h"

uint32_t portable_digest_bits(size_t code, const uint8_t *message, size_t message_len, size_t odd, uint8_t *out, size_t out_len)
{
    return code < 1 || code > 4 ? 1 : portable_output_bits(code, digest_words(code), message, message_len, odd, out, out_len);
}

uint32_t portable_digest(size_t code, const uint8_t *message, size_t message_len, uint8_t *out, size_t out_len)
{
    return portable_digest_bits(code, message, message_len, 0, out, out_len);
}
