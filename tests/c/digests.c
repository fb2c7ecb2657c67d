/* Digests: document 01's four of `abc`, padding, output buffers of every length about the digest's,
   and a record that is finished, finished again and fed on. */
#include "test.h"

static const char *const abc[] = {
    "",
    "f29311b87e9e40de7699be23fbeb5a47cb16ea4f5556d47ca40c12ad",
    "f29311b87e9e40de7699be23fbeb5a47cb16ea4f5556d47ca40c12ad764a73bd",
    "9a7abb797a840e2d423c34c91f559f6809bdb2916fb2e9effec2fa0a7a69881be9872480c635d20d2fd6e95d046601a7",
    "f40245973e80d79d0f4b9b202ddd4505b81b8830501bea31612b5817aae387921dcefd808ca2c78020aff59345d6f91f"
    "0ee6b2eee113f0cbcf22b64381387e8a",
};

static void abc_at(size_t code)
{
    uint8_t digest[LUFFA_512_BYTES];
    char hex[2 * LUFFA_512_BYTES + 1];

    digest_call(LUFFA_DONE, code, (const uint8_t *)"abc", 3, digest_bytes[code], digest);
    for (size_t i = 0; i < digest_bytes[code]; i++)
        sprintf(hex + 2 * i, "%02x", digest[i]);
    check(strcmp(hex, abc[code]) == 0, "digest of abc at code %zu: %s", code, hex);
}

/* A message and the same message with its padding written out have different digests: a whole block
   at the end is followed by one of padding alone. */
static void padding_written_out(size_t code, const uint8_t *message)
{
    uint8_t padded[96], digest[LUFFA_512_BYTES], other[LUFFA_512_BYTES];

    for (size_t n = 0; n < sizeof padded; n++) {
        memset(padded, 0, sizeof padded);
        memcpy(padded, message, n);
        padded[n] = 0x80;
        digest_call(LUFFA_DONE, code, message, n, sizeof digest, digest);
        digest_call(LUFFA_DONE, code, padded, n / 32 * 32 + 32, sizeof other, other);
        check(memcmp(digest, other, digest_bytes[code]) != 0, "%zu bytes at code %zu: no padding", n, code);
    }
}

/* Every length of the output buffer from 0 to well over the digest's: too short is refused, and else
   the digest is the same and the rest stays. */
static void output_buffers(size_t code, const uint8_t *message, size_t n)
{
    uint8_t record[LUFFA_RECORD_BYTES], digest[LUFFA_512_BYTES], again[LUFFA_512_BYTES];

    digest_call(LUFFA_DONE, code, message, n, digest_bytes[code], digest);
    start_call(LUFFA_DONE, code, sizeof record, record);
    feed_call(LUFFA_DONE, record, sizeof record, message, n);
    for (size_t out_len = 0; out_len <= 200; out_len++) {
        uint32_t want = out_len < digest_bytes[code] ? LUFFA_OUT : LUFFA_DONE;
        memcpy(again, digest, sizeof again);
        digest_call(want, code, message, n, out_len, again);
        check(memcmp(again, digest, digest_bytes[code]) == 0, "digest of %zu bytes at code %zu into %zu bytes", n,
              code, out_len);
        finish_call(want, record, sizeof record, out_len, again);
        check(memcmp(again, digest, digest_bytes[code]) == 0, "finish after %zu bytes at code %zu into %zu bytes", n,
              code, out_len);
    }
}

/* After each of many pieces the record is finished, and fed on as if it hadn't been. */
static void finished_and_fed_on(size_t code, const uint8_t *message, size_t n)
{
    uint8_t record[LUFFA_RECORD_BYTES], digest[LUFFA_512_BYTES], first[LUFFA_512_BYTES], second[LUFFA_512_BYTES];
    size_t fed = 0;

    start_call(LUFFA_DONE, code, sizeof record, record);
    for (size_t piece = 0; fed + piece <= n; piece++) {
        feed_call(LUFFA_DONE, record, sizeof record, message + fed, piece);
        fed += piece;
        digest_call(LUFFA_DONE, code, message, fed, LUFFA_512_BYTES, digest);
        finish_call(LUFFA_DONE, record, sizeof record, LUFFA_512_BYTES, first);
        finish_call(LUFFA_DONE, record, sizeof record, LUFFA_512_BYTES, second);
        check(memcmp(first, digest, digest_bytes[code]) == 0, "finish after %zu bytes at code %zu", fed, code);
        check(memcmp(second, first, digest_bytes[code]) == 0, "second finish after %zu bytes at code %zu", fed, code);
    }
}

int main(void)
{
    static const size_t lengths[] = {0, 1, 31, 32, 33, 63, 64, 100};
    static uint8_t message[10000];

    fill(message, sizeof message);
    for (size_t code = 1; code <= 4; code++) {
        abc_at(code);
        padding_written_out(code, message);
        for (size_t i = 0; i < sizeof lengths / sizeof *lengths; i++)
            output_buffers(code, message, lengths[i]);
        finished_and_fed_on(code, message, sizeof message);
    }
    return 0;
}
