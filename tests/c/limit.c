/* Messages near the limit of 2^64 bits, at codes 3 and 4 of 2^128, by records whose count is set by
   hand: a piece that just fits is taken, one byte more is refused 4, and a count only counts. */
#include "test.h"

static uint8_t piece[10000];

/* Document 01's example: 1 byte onto 2^61 - 2 is taken, 2 are refused. And Q-7's: onto 2^61 - 1 bytes
   a byte of which 1 to 7 bits count is still taken, a whole one isn't. At codes 3 and 4 all are taken. */
static void example(size_t code)
{
    uint8_t record[LUFFA_RECORD_BYTES];
    uint32_t over = code <= 2 ? LUFFA_LONG : LUFFA_DONE;

    for (size_t odd = 1; odd <= MOST_ODD; odd++) {
        any_record(record, code, UINT64_C(2305843009213693950));
        feed_call(over, record, sizeof record, piece, 2);
        any_record(record, code, UINT64_C(2305843009213693950));
        feed_call(LUFFA_DONE, record, sizeof record, piece, 1);
        check(count_of(record) == LUFFA_LIMIT, "one byte onto 2^61 - 2");
        feed_call(LUFFA_DONE, record, sizeof record, piece, 0);
        feed_bits_call(LUFFA_DONE, record, sizeof record, piece, 1, odd);
        check(count_of(record) == LUFFA_LIMIT && record[1] == odd, "%zu bits onto 2^61 - 1 bytes", odd);
        any_record(record, code, LUFFA_LIMIT);
        feed_bits_call(over, record, sizeof record, piece, 2, odd);
        any_record(record, code, LUFFA_LIMIT);
        feed_call(over, record, sizeof record, piece, 1);
    }
}

/* Feeds n bytes, the last of them with odd bits or without, and the same to a twin with a small count
   that is equal modulo 32: all but the counts must stay alike. */
static void beside_twin(const uint8_t *from, size_t n, size_t odd)
{
    uint8_t record[LUFFA_RECORD_BYTES], twin[LUFFA_RECORD_BYTES];
    uint8_t digest[LUFFA_512_BYTES], of_twin[LUFFA_512_BYTES];

    memcpy(record, from, sizeof record);
    memcpy(twin, from, sizeof twin);
    set_count(twin, 64 + count_of(from) % 32);
    feed_bits_call(LUFFA_DONE, record, sizeof record, piece, n, odd);
    feed_bits_call(LUFFA_DONE, twin, sizeof twin, piece, n, odd);
    check(memcmp(record, twin, COUNT) == 0, "%zu bytes, odd %zu, fed near the limit", n, odd);
    finish_call(LUFFA_DONE, record, sizeof record, sizeof digest, digest);
    finish_call(LUFFA_DONE, twin, sizeof twin, sizeof of_twin, of_twin);
    check(memcmp(digest, of_twin, digest_bytes[from[0]]) == 0, "finish near the limit");
}

/* A record that has room for `left` whole bytes more, and seven bits. */
static void room_for(size_t left, size_t code)
{
    uint8_t record[LUFFA_RECORD_BYTES];

    any_record(record, code, most_bytes(code) - left);
    for (size_t over = 1; over <= 70; over++)
        feed_call(LUFFA_LONG, record, sizeof record, piece, left + over);
    feed_call(LUFFA_LONG, record, sizeof record, piece, sizeof piece);
    for (size_t n = 0; n <= left; n++)
        beside_twin(record, n, 0);
    for (size_t odd = 1; odd <= MOST_ODD; odd++) {
        feed_bits_call(LUFFA_LONG, record, sizeof record, piece, left + 2, odd);
        feed_bits_call(LUFFA_LONG, record, sizeof record, piece, sizeof piece, odd);
        beside_twin(record, 1, odd);
        beside_twin(record, left + 1, odd);
    }
}

/* The count carries from each of its bytes to the next, also from the eighth to the ninth. */
static void carries(size_t code)
{
    uint8_t record[LUFFA_RECORD_BYTES];

    for (int bits = 8; TWO_TO(bits) < most_bytes(code); bits++)
        for (size_t n = 1; n <= 40; n += 13) {
            any_record(record, code, TWO_TO(bits) - 1);
            beside_twin(record, n, 0);
            beside_twin(record, n + 1, 1 + n % MOST_ODD);
        }
}

int main(void)
{
    fill(piece, sizeof piece);
    for (size_t code = 1; code <= 4; code++) {
        example(code);
        for (size_t left = 0; left <= 70; left++)
            room_for(left, code);
        carries(code);
    }
    return 0;
}
