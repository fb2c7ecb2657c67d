/* What the two C programs of the benchmark share: the starting variables, SubCrumb by the instructions of appendix D, MixWord, and the message
   injection by the forms of appendix E, which columns.c has beside the archive's by columns. What they have in common after their rounds is in
   message.h. */
#ifndef PLAIN_H
#define PLAIN_H

#include <stddef.h>
#include <stdint.h>
#include <string.h>

enum { BLOCK_BYTES = 32, MOST_BLOCKS = 5 };

/* Appendix A. */
static const uint32_t START[MOST_BLOCKS][8] = {
    {0x6d251e69, 0x44b051e0, 0x4eaa6fb4, 0xdbf78465, 0x6e292011, 0x90152df4, 0xee058139, 0xdef610bb},
    {0xc3b44b95, 0xd9d2f256, 0x70eee9a0, 0xde099fa3, 0x5d9b0557, 0x8fc944b3, 0xcf1ccf0e, 0x746cd581},
    {0xf7efc89d, 0x5dba5781, 0x04016ce5, 0xad659c05, 0x0306194f, 0x666d1836, 0x24aa230a, 0x8b264ae7},
    {0x858075d5, 0x36d79cce, 0xe571f7d7, 0x204b1f67, 0x35870c6a, 0x57e9e923, 0x14bcb808, 0x7cde72ce},
    {0x6c68e9be, 0x5ec41e22, 0xc825b7c7, 0xaffb4363, 0xf5df3999, 0x0fc688f1, 0xb07224cc, 0x03e86cea},
};

static inline uint32_t rotl(uint32_t x, unsigned n) { return (x << n) | (x >> ((32 - n) & 31)); }

/* Appendix D, read left to right, line by line. */
static inline void sub_crumb(uint32_t *a0, uint32_t *a1, uint32_t *a2, uint32_t *a3)
{
    uint32_t r0 = *a0, r1 = *a1, r2 = *a2, r3 = *a3, r4;

    r4 = r0;  r0 |= r1; r2 ^= r3;
    r1 = ~r1; r0 ^= r3; r3 &= r4;
    r1 ^= r3; r3 ^= r2; r2 &= r0;
    r0 = ~r0; r2 ^= r1; r1 |= r3;
    r4 ^= r1; r3 ^= r2; r2 &= r1;
    r1 ^= r0;

    *a0 = r4; *a1 = r1; *a2 = r2; *a3 = r3;
}

/* 4.3 */
static inline void mix_word(uint32_t *xk, uint32_t *xk4)
{
    uint32_t y = *xk, z = *xk4;

    z ^= y;
    y = rotl(y, 2) ^ z;
    z = rotl(z, 14) ^ y;
    y = rotl(y, 10) ^ z;
    z = rotl(z, 1);

    *xk = y; *xk4 = z;
}

/* 3.2: multiplication by 0x02, in place. */
static inline void twice(uint32_t a[8])
{
    uint32_t tmp = a[7];

    a[7] = a[6];
    a[6] = a[5];
    a[5] = a[4];
    a[4] = a[3] ^ tmp;
    a[3] = a[2] ^ tmp;
    a[2] = a[1];
    a[1] = a[0] ^ tmp;
    a[0] = tmp;
}

static inline void add(uint32_t a[8], const uint32_t b[8])
{
    for (int k = 0; k < 8; k++)
        a[k] ^= b[k];
}

/* 2.2: a block of 32 bytes as eight words, first byte highest. */
static inline void load(uint32_t m[8], const uint8_t *x)
{
    for (int k = 0; k < 8; k++, x += 4)
        m[k] = (uint32_t)x[0] << 24 | (uint32_t)x[1] << 16 | (uint32_t)x[2] << 8 | x[3];
}

static inline void store(uint8_t *x, uint32_t a)
{
    x[0] = (uint8_t)(a >> 24);
    x[1] = (uint8_t)(a >> 16);
    x[2] = (uint8_t)(a >> 8);
    x[3] = (uint8_t)a;
}

/* E-1 */
static inline void inject3(uint32_t h[3][8], uint32_t m[8])
{
    uint32_t sum[8];

    for (int k = 0; k < 8; k++)
        sum[k] = h[0][k] ^ h[1][k] ^ h[2][k];
    twice(sum);
    for (int j = 0; j < 3; j++) {
        add(h[j], sum);
        add(h[j], m);
        twice(m);
    }
}

/* E-2: h holds eta and then X, so eta_3 is kept aside until X_0 takes it. */
static inline void inject4(uint32_t h[4][8], uint32_t m[8])
{
    uint32_t sum[8], last[8];

    for (int k = 0; k < 8; k++)
        sum[k] = h[0][k] ^ h[1][k] ^ h[2][k] ^ h[3][k];
    twice(sum);
    for (int j = 0; j < 4; j++)
        add(h[j], sum);

    memcpy(last, h[3], sizeof last);
    for (int j = 3; j > 0; j--) {
        twice(h[j]);
        add(h[j], h[j - 1]);
    }
    twice(h[0]);
    add(h[0], last);

    for (int j = 0; j < 4; j++) {
        add(h[j], m);
        twice(m);
    }
}

/* E-3: h holds eta, then xi, then X, so eta_0 and xi_4 are kept aside until xi_4 and X_0 take them. */
static inline void inject5(uint32_t h[5][8], uint32_t m[8])
{
    uint32_t sum[8], first[8], last[8];

    for (int k = 0; k < 8; k++)
        sum[k] = h[0][k] ^ h[1][k] ^ h[2][k] ^ h[3][k] ^ h[4][k];
    twice(sum);
    for (int j = 0; j < 5; j++)
        add(h[j], sum);

    memcpy(first, h[0], sizeof first);
    for (int j = 0; j < 4; j++) {
        twice(h[j]);
        add(h[j], h[j + 1]);
    }
    twice(h[4]);
    add(h[4], first);

    memcpy(last, h[4], sizeof last);
    for (int j = 4; j > 0; j--) {
        twice(h[j]);
        add(h[j], h[j - 1]);
    }
    twice(h[0]);
    add(h[0], last);

    for (int j = 0; j < 5; j++) {
        add(h[j], m);
        twice(m);
    }
}

#endif
