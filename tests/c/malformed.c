/* Every way in which a record can be malformed, one at a time: each is refused 3 by luffa_feed, luffa_back
   and luffa_finish, before any other number, and by luffa_finish_output, before 2. What may be anything in
   a well-formed record is taken. */
#include "test.h"

static uint8_t piece[64];

static void refused(const uint8_t *record, size_t record_len)
{
    uint8_t copy[2 * LUFFA_RECORD_BYTES];

    memcpy(copy, record, record_len);
    feed_call(LUFFA_RECORD, copy, record_len, piece, 0);
    feed_call(LUFFA_RECORD, copy, record_len, piece, sizeof piece);
    feed_bits_call(LUFFA_RECORD, copy, record_len, piece, 1, 3);
    feed_bits_call(LUFFA_RECORD, copy, record_len, piece, 1, 8);
    back_call(LUFFA_RECORD, copy, record_len, piece, BLOCK);
    back_call(LUFFA_RECORD, copy, record_len, piece, BLOCK + 1);
    finish_call(LUFFA_RECORD, copy, record_len, 0, NULL);
    finish_call(LUFFA_RECORD, copy, record_len, LUFFA_224_BYTES - 1, NULL);
    finish_call(LUFFA_RECORD, copy, record_len, LUFFA_512_BYTES, NULL);
    finish_output_call(LUFFA_RECORD, copy, record_len, 1, 4, NULL);
    finish_output_call(LUFFA_RECORD, copy, record_len, MOST_WORDS, 0, NULL);
}

/* Puts `value` in one byte, which must not be changed in a well-formed record. */
static void refused_with(const uint8_t *record, size_t at, uint8_t value)
{
    uint8_t copy[LUFFA_RECORD_BYTES];

    memcpy(copy, record, sizeof copy);
    copy[at] = value;
    refused(copy, sizeof copy);
}

static void one_bit_each(const uint8_t *record, size_t from, size_t to)
{
    for (size_t at = from; at < to; at++)
        for (int bit = 0; bit < 8; bit++)
            refused_with(record, at, (uint8_t)(record[at] ^ 1 << bit));
}

/* The record is taken, and its digest moves with each byte that it may hold. */
static void taken(const uint8_t *record, size_t from, size_t to)
{
    uint8_t copy[LUFFA_RECORD_BYTES], digest[LUFFA_512_BYTES], other[LUFFA_512_BYTES];
    uint32_t want = record[1] == 0 ? LUFFA_DONE : LUFFA_ODD;

    memcpy(copy, record, sizeof copy);
    feed_call(want, copy, sizeof copy, piece, 0);
    finish_call(LUFFA_DONE, copy, sizeof copy, sizeof digest, digest);
    for (size_t at = from; at < to; at++) {
        copy[at] ^= 0x80;
        feed_call(want, copy, sizeof copy, piece, 0);
        finish_call(LUFFA_DONE, copy, sizeof copy, sizeof other, other);
        check(memcmp(other, digest, digest_bytes[record[0]]) != 0, "byte %zu of a record doesn't matter", at);
        copy[at] = record[at];
    }
}

static void record_of(size_t code, bytes_fed count, size_t odd)
{
    uint8_t record[2 * LUFFA_RECORD_BYTES];
    size_t held = PENDING + count % 32;

    any_odd_record(record, code, count, odd);
    memset(record + LUFFA_RECORD_BYTES, 0, LUFFA_RECORD_BYTES);
    taken(record, STATE, STATE + state_bytes[code]);
    taken(record, PENDING, held + (odd > 0));

    for (size_t record_len = 0; record_len <= sizeof record; record_len++)
        if (record_len != LUFFA_RECORD_BYTES)
            refused(record, record_len);
    refused_with(record, 0, 0);
    for (int other = 5; other <= 255; other++)
        refused_with(record, 0, (uint8_t)other);
    /* Those whose three low bits are the odd bits, and where there are none all. */
    for (size_t other = 8 + odd; other <= 255; other += odd == 0 ? 1 : 8)
        refused_with(record, 1, (uint8_t)other);
    one_bit_each(record, 2, STATE);
    one_bit_each(record, STATE + state_bytes[code], PENDING);
    for (int bit = 0; odd > 0 && bit < 8 - (int)odd; bit++)
        refused_with(record, held, (uint8_t)(record[held] | 1 << bit));
    one_bit_each(record, held + (odd > 0), COUNT);
    /* With fewer odd bits the last one, if it is set, is none of the message's. */
    record[held] |= odd > 0 ? (uint8_t)(0x100 >> odd) : 0;
    for (size_t fewer = 0; fewer < odd; fewer++)
        refused_with(record, 1, (uint8_t)fewer);
}

/* A record as version 1 wrote it: without odd bits, its count in 8 bytes. */
static void version_1(size_t code, uint64_t count)
{
    uint8_t record[LUFFA_RECORD_BYTES];

    any_record(record, code, count);
    memmove(record + COUNT, record + COUNT + 8, 8);
    refused(record, 208);
}

/* A buffer that was only cleared is no record, for want of a code. */
static void cleared(void)
{
    uint8_t record[LUFFA_RECORD_BYTES] = {0};

    for (int code = 0; code <= 255; code++) {
        record[0] = (uint8_t)code;
        if (1 <= code && code <= 4)
            taken(record, STATE, STATE + state_bytes[code]);
        else
            refused(record, sizeof record);
    }
}

/* A code of another width makes used words unused; one of the same width changes nothing. */
static void other_width(void)
{
    uint8_t record[LUFFA_RECORD_BYTES];

    any_record(record, 4, 40);
    refused_with(record, 0, 3);
    refused_with(record, 0, 1);
    any_record(record, 3, 40);
    refused_with(record, 0, 2);
}

static void counts_over_the_limit(size_t code)
{
    static const uint64_t over[] = {1, 2, 31, 32, 33, 64, 65536};
    uint8_t record[LUFFA_RECORD_BYTES];
    bytes_fed most = most_bytes(code);

    for (size_t i = 0; i < COUNT_OF(over); i++)
        for (size_t odd = 0; odd <= MOST_ODD; odd++) {
            any_odd_record(record, code, most + over[i], odd);
            refused(record, sizeof record);
            /* With these, the count and a piece together wrap to a small number, all of it or its low half. */
            any_odd_record(record, code, -(bytes_fed)over[i], odd);
            refused(record, sizeof record);
            if (code > 2)
                continue;
            any_odd_record(record, code, TWO_TO(64) - over[i], odd);
            refused(record, sizeof record);
            any_odd_record(record, code, TWO_TO(64) + over[i], odd);
            refused(record, sizeof record);
        }
    for (int bit = code <= 2 ? 61 : 125; bit < 128; bit++) {
        any_record(record, code, TWO_TO(bit));
        refused(record, sizeof record);
        any_record(record, code, most | TWO_TO(bit));
        refused(record, sizeof record);
    }
}

int main(void)
{
    static const uint64_t small[] = {64, 1000000007, LUFFA_LIMIT - 32};

    fill(piece, sizeof piece);
    for (size_t code = 1; code <= 4; code++) {
        for (size_t count = 0; count < 32; count++) {
            record_of(code, count, count % 8);
            version_1(code, count);
        }
        /* 31 bytes pending, and the odd byte as the last. */
        for (size_t odd = 0; odd < MOST_ODD; odd++)
            record_of(code, 31, odd);
        for (size_t i = 0; i < COUNT_OF(small); i++)
            record_of(code, small[i], i);
        /* At and below the limit a piece would be refused 4, if the record were well formed. */
        record_of(code, most_bytes(code) - 1, 0);
        record_of(code, most_bytes(code), 0);
        record_of(code, most_bytes(code), MOST_ODD);
        counts_over_the_limit(code);
    }
    cleared();
    other_width();
    return 0;
}
