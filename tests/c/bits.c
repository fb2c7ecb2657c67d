/* Messages that stop inside a byte: digests that the separately written program gave, others worked out
   through luffa_feed by hand, the bits that count and those that don't, and what is refused 17. */
#include "test.h"

static const uint8_t text[] = "Downhole loggers send bit-packed frames.";

/* The digests of the text's first bits at each code, as `independent bits N` prints them. */
static const struct {
    size_t bits;
    const char *digests[4];
} known[] = {
    {1,
     {"14b20cb4cc4c4be3d472262f69f43aa87bbde60f42db8abe6a39c2b1",
      "14b20cb4cc4c4be3d472262f69f43aa87bbde60f42db8abe6a39c2b14a8cdfc8",
      "bee5fedbdddbf6949fa03dd7f29143365914b62f170e0fe65d64307ba8397cadc1f09605d88751c98c71506f7929df5c",
      "d062d0c5b9c659f0b2bba6c3da3e864123e8d4683df4581742ccfd43fd32771fecb9fc63ba83b08d9fd4b7ea335cfcab"
      "a70ec9e4913be51ff9d3998863cba949"}},
    {7,
     {"e2166190d0010f22dd50d12c51271069ae817986e87e1be9c5e57c2f",
      "e2166190d0010f22dd50d12c51271069ae817986e87e1be9c5e57c2fbe54555a",
      "3755828229bdea4b21f393fb5f735ffd2c1bc6ab0e0d34cfa403730dea184b488972627401e0118a8addd3c71fe793ae",
      "2e9473e8a04223f1771f6e26bc78c8ee121f346a055ba48f1e7825a55bd6e37aa860d2ddd2a270f13cf5c191528f8c82"
      "d6437b22a68b8b9c11154a0011bfd1fb"}},
    {21,
     {"10559bd305edc4545191e253b261d2a90a3c64ceba6b481d31a44532",
      "10559bd305edc4545191e253b261d2a90a3c64ceba6b481d31a445320ee58445",
      "dfad31abf0467e55d9c00fddcef25b8014d53da449131bafbe422e939961043e375492a9664cecf06c875a9f63462aa0",
      "d6deecb5a507a8ee8e1f8406e15cc9e2848b07d6b098d8d6831a3b425c695046bf0f0f9885088b052843dc327a62cd8d"
      "b175391a81453f1f4dfa5e33db316e30"}},
    {255,
     {"f1a0334ec2f06696c54879170b37e80e937bd03f92164007a71ce66d",
      "f1a0334ec2f06696c54879170b37e80e937bd03f92164007a71ce66d4c42353b",
      "0c04c57b5bdd4c972ac5338c11219a0a1e775084148cf1ac6f5a7e0e9fcd3331a01c7abe4c2c9403a335381d3c5633cd",
      "1d02536dee09f63faf277b3aadcc8c8e4d1a2909110f8252dfd162aa7c65bc17a20b42ab04850e6f5c41d577a57b7256"
      "284c06cabc6d127eec7f0ffefd1f34ef"}},
    {257,
     {"790183b03dc0f9e18e36ea3a1068c1e4b1d2d981a5e7c47c1d8f79db",
      "790183b03dc0f9e18e36ea3a1068c1e4b1d2d981a5e7c47c1d8f79db3599f017",
      "376cfd8001082b132a21623f2bb55d2a26fd48b43a5cadc73adf620a18db0f063fe557c74687e471d7e43224ac3e87bd",
      "0ebfce2672490128531c00a8ea112e75287d24a901d014d8f77f13907a94bc8a4a0a94cc68d26724b0bf62c300f817b7"
      "366a216b31c9adff0ea0ccda227d9b38"}},
    {319,
     {"e717e48f65d2c474057d517cd953d634ec59d637a0ad1b9d0434b287",
      "e717e48f65d2c474057d517cd953d634ec59d637a0ad1b9d0434b287e2454f4e",
      "442414a564db1af0acee98136758da2c64fb692962209433285b88fd046547f90b919065724c20c8706817f47070bde7",
      "a6038cc05593ff8a4aed4cd7145a0b912aea39be0e9ca8d15d149617bad9a4ff3f5d378a692691e07972293a477a3046"
      "8f5421decb5ca5aa176bb70490fa3411"}},
};

/* The bytes that so many bits stand in. */
static size_t bytes_for(size_t bits) { return (bits + 7) / 8; }

static void known_answers(void)
{
    uint8_t digest[LUFFA_512_BYTES];
    char hex[2 * LUFFA_512_BYTES + 1];

    for (size_t k = 0; k < COUNT_OF(known); k++)
        for (size_t code = 1; code <= 4; code++) {
            size_t bits = known[k].bits;
            digest_bits_call(LUFFA_DONE, code, text, bytes_for(bits), bits % 8, digest_bytes[code], digest);
            for (size_t i = 0; i < digest_bytes[code]; i++)
                sprintf(hex + 2 * i, "%02x", digest[i]);
            check(strcmp(hex, known[k].digests[code - 1]) == 0, "%zu bits at code %zu: %s", bits, code, hex);
        }
}

/* The one-call digest, and start, feed and two finishes, give this digest. */
static void digest_is(const uint8_t *digest, size_t code, const uint8_t *message, size_t bits)
{
    uint8_t record[LUFFA_RECORD_BYTES], got[LUFFA_512_BYTES];

    digest_bits_call(LUFFA_DONE, code, message, bytes_for(bits), bits % 8, sizeof got, got);
    check(memcmp(got, digest, digest_bytes[code]) == 0, "%zu bits at code %zu", bits, code);
    start_call(LUFFA_DONE, code, sizeof record, record);
    feed_bits_call(LUFFA_DONE, record, sizeof record, message, bytes_for(bits), bits % 8);
    for (int times = 1; times <= 2; times++) {
        finish_call(LUFFA_DONE, record, sizeof record, sizeof got, got);
        check(memcmp(got, digest, digest_bytes[code]) == 0, "finish %d after %zu bits at code %zu", times, bits, code);
    }
}

/* Whatever stands in the odd byte's unused low bits, the digest is the same; with any of its other bits
   changed it isn't. */
static void which_bits_count(size_t code, const uint8_t *message, size_t bits)
{
    uint8_t digest[LUFFA_512_BYTES], other[LUFFA_512_BYTES], changed[96];
    size_t last = bits / 8, odd = bits % 8;

    by_hand(code, message, bits, digest_bytes[code] / 4, digest);
    memcpy(changed, message, sizeof changed);
    for (int low = 0; odd > 0 && low <= 0xff >> odd; low += 1 + low / 4) {
        changed[last] = (uint8_t)(odd_byte(message[last], odd) | low);
        digest_is(digest, code, changed, bits);
    }
    for (size_t i = 0; i < odd; i++) {
        changed[last] = (uint8_t)(message[last] ^ 0x80 >> i);
        digest_bits_call(LUFFA_DONE, code, changed, last + 1, odd, sizeof other, other);
        check(memcmp(other, digest, digest_bytes[code]) != 0, "odd bit %zu of %zu bits at code %zu doesn't matter", i,
              bits, code);
    }
}

/* Odd bits that the piece doesn't have, and pieces for a message that has ended. Each is 17 before 4. */
static void refused(size_t code, const uint8_t *piece, bytes_fed count)
{
    uint8_t record[LUFFA_RECORD_BYTES];

    any_record(record, code, count);
    for (size_t i = 0; i < COUNT_OF(no_odd); i++)
        for (size_t n = 0; n <= 40; n += 8)
            feed_bits_call(LUFFA_ODD, record, sizeof record, piece, n, no_odd[i]);
    for (size_t odd = 1; odd <= MOST_ODD; odd++) {
        any_record(record, code, count);
        feed_bits_call(LUFFA_ODD, record, sizeof record, piece, 0, odd);
        any_odd_record(record, code, count, odd);
        for (size_t n = 0; n <= 40; n += 8)
            feed_call(LUFFA_ODD, record, sizeof record, piece, n);
        for (size_t more = 1; more <= MOST_ODD + 1; more++)
            for (size_t n = 0; n <= 3; n++)
                feed_bits_call(LUFFA_ODD, record, sizeof record, piece, n, more);
        finish_call(LUFFA_DONE, record, sizeof record, LUFFA_512_BYTES, NULL);
    }
}

int main(void)
{
    uint8_t message[96], digest[LUFFA_512_BYTES];

    known_answers();
    fill(message, sizeof message);
    for (size_t code = 1; code <= 4; code++) {
        for (size_t bits = 0; bits <= 520; bits++) {
            by_hand(code, message, bits, digest_bytes[code] / 4, digest);
            digest_is(digest, code, message, bits);
        }
        /* All about the end of a block, and some before. */
        for (size_t bits = 1; bits <= 264; bits += bits < 240 ? 13 : 1)
            which_bits_count(code, message, bits);
        refused(code, message, 0);
        refused(code, message, 31);
        refused(code, message, most_bytes(code) - 1);
        refused(code, message, most_bytes(code));
    }
    return 0;
}
