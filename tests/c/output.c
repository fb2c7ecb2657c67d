/* Longer output: words that the separately written program gave, others worked out through luffa_feed by
   hand, every number of words in one call, from a record and from a struct, and what is refused, in its
   order. Where a buffer of no bytes is lent, it is a null pointer at times. */
#include "test.h"

static uint8_t message[96];

/* All 64 words at widths 3, 4 and 5, as `independent words CODE 64` prints them. Codes 1 and 2 have one width. */
static const struct {
    const char *message, *outputs[3];
} known[] = {
    {"abc",
     {"f29311b87e9e40de7699be23fbeb5a47cb16ea4f5556d47ca40c12ad764a73bdfae40b40b582134b04b0aaa45c8343c4"
      "94972589ca1c76b98c33ec9947fc18ac3e6adb4f6ef5f1d969b39e7710a472d328843c5cd0d2d848129793102058bacb"
      "e978d0133642c071dad452ec2b621c82a9d547767c2345e9b4cb7bbacc9fe67633d98e35951bdaf1ad6731b25890de24"
      "b78483be896fb3a47c3584b30048f36e23ad3f6a0fbedc3a57b5fb8d05937e4d4f4a602b7ceb0771c3df84c27e7ca20b"
      "fdaa77a888d2b4b6e2637f1c6bb055fb6274c4fbca8a0ce85cfe5196b10b93d704d4238def75f230423ee924f87eb4ec"
      "38937400edb26a72be239637ba8f9755",
      "9a7abb797a840e2d423c34c91f559f6809bdb2916fb2e9effec2fa0a7a69881be9872480c635d20d2fd6e95d046601a7"
      "9cd562a57a85e7759c9d0d61da0ef920f62622f5000d3bbf23019d3356bd0a29b6c12e351d3819468206a22866c7226c"
      "bcc4055d7faf8f47bb187e6a76c0b05a2d96eb306af5deb56cceb860c2710a5dc5e9c26f4d43aa7b6e9a5a322ee89537"
      "bde01a9df8124acdc95dd78a3f4af6af859e795c5c9fce49bc28cc2e0bd132cb2f6cf84818b4d59512518a3ce24203e9"
      "d46f3ce1854aa4767e2785e39d9a6e08f56545a80a58e87e54fbd548f5a99c36916d5dd8b5ef161d4ed8dbb9eadd25da"
      "d08794f35dbb38d55d9591e79017dc86",
      "f40245973e80d79d0f4b9b202ddd4505b81b8830501bea31612b5817aae387921dcefd808ca2c78020aff59345d6f91f"
      "0ee6b2eee113f0cbcf22b64381387e8a468df7c0894ca71f3a231dcbbe298239837ed310412caef74ec45ba059616f10"
      "917e071c2a3e580138d75bb4c3b11c92e1563b2ee54ac10e99a0560af4278c0a18c4ea2b704bf0f426c381227f9e50d7"
      "947022d6c2c34d8c6535e64c75f77aba62f9ad15376ec20233325c9cd5f2562eb31f6c7ab4b20ba2a71fca6adea32d24"
      "211aeb615df403f08ed00ca30cce3efd4d36c0aee342a275bc22734fc256642ea79b25b84054059b8d3bd65276e2d82d"
      "b73fc54eae8a02b68d37b33e116234c9"}},
    {"Pairing box 7 draws its key labels from one message.",
     {"c9397dead1ef61c08136adf0f3936281054dcad8734d9afd21bfc0b53dc825f9d61fbbfe70adb238d0c80c9598fd18d7"
      "22b13a976b04eb13f96e896afc39ed4e004da865f4441c74c3181e7070c012670eb1035b67f500d4fabb493d2fb2672b"
      "e3e657de44598d3a9064650e7ebe985cd66008b5a554c6adc0503f1254853529ca07c51439044627ce0abb651d7ae979"
      "54c4a7407b14147f0078a7840d1c5c2bed9a490c4d331d56ee7514174fd208120cb0419e8aedf30c2f190c0c429f46d6"
      "601f8e5740565d54b335f17f51ed830a9837e7915eb04b3f567b356eca88037e0284055b86827b05afcee53e28fbc5c6"
      "f85bd7de6937bb9b978514d5555f2b2c",
      "272152ec6326d76f6fd4e5a303217fcda5022574b27b61cc7afd3b2772db9afcdb0b6575e7ef39eca5be91c8d8b5785e"
      "5b47cdc41babaa2f19f762f47180eb50adcb6cd86b6d5ab547f46569ebc83fc36c9cd10691832442d4dab192b719287a"
      "faaec3daa97639d65deb32316066e44f924e2c6f6b832a141a95e4c942f83b47fdd1b577619cdae0d696f8b84be38851"
      "7f26517354ef5539c0de559f161654b84fee0bbc58d853524907d84e6afdd083b5382e6fd9f9a26bb81030cb8bf1e42a"
      "01f3df27154bb1ca7d8ed344e84006c3c398860d7d8951cceb74166f1042b89fbd3f7bf97339ab9314e3989f685e16d1"
      "cdea73f358dd28906d22b84fc4d2dde4",
      "010c8bde074d7202ab7002ede45fd5253c348800fb0b48424d97923e2e586eeae23280554d1a1fcf963167111788d24e"
      "25d12f01a97b3d07c69af3e19fd2984f2534e7b861639845abcb326d4904b75c28fa0b252840eb7cb23e5b0aeeca908a"
      "f3ff4ad2521921e7afffc004391145048f5152b84ee46e15924ab9ce6312f7bc63a2ff76a24deff5c3fcac581b5825dc"
      "2fcf2900fdd258aee52ab4a9711f5f1b726fbd11c94eddcd7cea41389237a71f5d294732634cc3f4df9acbf3c15dc116"
      "8911c75a0d33752cb03f4060ff632db49e32116d1474779921f6dae330c39d7744d85b2ba6f758b1dab4d05d85fb8b3b"
      "373321d9a27d6eb292d6eccfe17f6d68"}},
};

/* The digests are their beginnings; digests.c has those of `abc` from Appendix C. */
static void known_answers(void)
{
    uint8_t output[OUTPUT], digest[LUFFA_512_BYTES];
    char hex[2 * OUTPUT + 1];

    for (size_t k = 0; k < COUNT_OF(known); k++)
        for (size_t code = 1; code <= 4; code++) {
            const uint8_t *text = (const uint8_t *)known[k].message;
            size_t n = strlen(known[k].message);
            output_bits_call(LUFFA_DONE, code, MOST_WORDS, text, n, 0, OUTPUT, output);
            for (size_t i = 0; i < OUTPUT; i++)
                sprintf(hex + 2 * i, "%02x", output[i]);
            check(strcmp(hex, known[k].outputs[code <= 2 ? 0 : code - 2]) == 0, "output of \"%s\" at code %zu: %s",
                  known[k].message, code, hex);
            digest_call(LUFFA_DONE, code, text, n, sizeof digest, digest);
            check(memcmp(digest, output, digest_bytes[code]) == 0, "digest of \"%s\" at code %zu", known[k].message,
                  code);
        }
}

/* ---- What is given: `output` is all 64 words, and others are its beginning. */

static void begins(const uint8_t *got, const uint8_t *output, size_t words, size_t code, const char *of)
{
    check(memcmp(got, output, 4 * words) == 0, "code %zu: wrong %zu words of a %s", code, words, of);
}

/* So many words of a record, and of a struct that holds the same, with room for more bytes. */
static void of_record(const uint8_t *output, const uint8_t *record, size_t words, size_t more)
{
    uint8_t got[OUTPUT];
    struct luffa_hash hash = in_struct(record);

    finish_output_call(LUFFA_DONE, record, LUFFA_RECORD_BYTES, words, 4 * words + more, got);
    begins(got, output, words, record[0], "record");
    hash_finish_output_call(LUFFA_DONE, &hash, words, 4 * words + more, got);
    begins(got, output, words, record[0], "struct");
}

/* Of a message's first bits: from `least` words on every number, with room for these and for more. */
static void of_message(size_t code, size_t bits, size_t least)
{
    static const size_t more[] = {0, 1, 100};
    uint8_t record[LUFFA_RECORD_BYTES], output[OUTPUT], got[OUTPUT], digest[LUFFA_512_BYTES];
    size_t n = (bits + 7) / 8, odd = bits % 8;

    by_hand(code, message, bits, MOST_WORDS, output);
    digest_bits_call(LUFFA_DONE, code, message, n, odd, sizeof digest, digest);
    check(memcmp(digest, output, digest_bytes[code]) == 0, "code %zu: the digest of %zu bits isn't their beginning",
          code, bits);
    start_call(LUFFA_DONE, code, sizeof record, record);
    feed_bits_call(LUFFA_DONE, record, sizeof record, message, n, odd);
    for (size_t words = least; words <= MOST_WORDS; words++)
        for (size_t i = 0; i < COUNT_OF(more); i++) {
            output_bits_call(LUFFA_DONE, code, words, message, n, odd, 4 * words + more[i], got);
            begins(got, output, words, code, "message");
            of_record(output, record, words, more[i]);
        }
}

/* The four digests are the output of 7, 8, 12 and 16 words, and their room is too small for another. */
static void digests(size_t code, size_t n)
{
    static const size_t digest_words[] = {0, 7, 8, 12, 16};
    uint8_t digest[LUFFA_512_BYTES], output[LUFFA_512_BYTES];

    digest_call(LUFFA_DONE, code, message, n, digest_bytes[code], digest);
    output_bits_call(LUFFA_DONE, code, digest_words[code], message, n, 0, digest_bytes[code], output);
    begins(output, digest, digest_words[code], code, "message");
    output_bits_call(LUFFA_OUT, code, digest_words[code] + 1, message, n, 0, digest_bytes[code], NULL);
}

/* A record and a struct that get the same. */
struct pair {
    uint8_t record[LUFFA_RECORD_BYTES];
    struct luffa_hash hash;
};

/* They are fed a piece, and then asked for all words twice, and for one word and the digest between. */
static void fed_and_asked(struct pair *p, size_t from, size_t to, size_t odd)
{
    uint8_t output[OUTPUT], got[OUTPUT];
    size_t code = p->record[0];

    feed_bits_call(LUFFA_DONE, p->record, sizeof p->record, message + from, to - from, odd);
    hash_feed_bits_call(LUFFA_DONE, &p->hash, message + from, to - from, odd);
    output_bits_call(LUFFA_DONE, code, MOST_WORDS, message, to, odd, OUTPUT, output);
    for (int times = 0; times < 2; times++) {
        of_record(output, p->record, MOST_WORDS, 0);
        hash_finish_output_call(LUFFA_DONE, &p->hash, MOST_WORDS, OUTPUT, got);
        begins(got, output, MOST_WORDS, code, "fed struct");
        of_record(output, p->record, 1, 0);
        finish_call(LUFFA_DONE, p->record, sizeof p->record, digest_bytes[code], got);
        begins(got, output, digest_bytes[code] / 4, code, "finished record");
    }
}

/* A message in every two pieces, the second with odd bits or without. */
static void cuts(size_t code, size_t n, size_t odd)
{
    struct pair p;

    for (size_t cut = 0; cut < n; cut++) {
        start_call(LUFFA_DONE, code, sizeof p.record, p.record);
        hash_start_call(LUFFA_DONE, code, &p.hash);
        fed_and_asked(&p, 0, cut, 0);
        fed_and_asked(&p, cut, n, odd);
    }
}

/* A well-formed record of any state. By hand its last block is fed whole to the same state. */
static void any_state(size_t code, bytes_fed count, size_t odd)
{
    uint8_t record[LUFFA_RECORD_BYTES], closed[LUFFA_RECORD_BYTES], last[32], output[OUTPUT];

    any_odd_record(record, code, count, odd);
    memcpy(last, record + PENDING, sizeof last);
    last[count % 32] |= (uint8_t)(0x80 >> odd);
    any_record(closed, code, 0);
    memcpy(closed + STATE, record + STATE, state_bytes[code]);
    feed_call(LUFFA_DONE, closed, sizeof closed, last, sizeof last);
    blank_rounds(closed, MOST_WORDS, output);
    of_record(output, record, MOST_WORDS, 7);
    of_record(output, record, 1 + count % MOST_WORDS, 0);
}

/* ---- What is refused. */

/* Numbers of words that are given, and then those that aren't. */
enum { GIVEN = 7, NUMBERS = GIVEN + COUNT_OF(no_words) };

static size_t number_of_words(size_t i)
{
    static const size_t given[GIVEN] = {1, 7, 8, 9, 16, MOST_WORDS - 1, MOST_WORDS};

    return i < GIVEN ? given[i] : no_words[i - GIVEN];
}

/* Room for no byte, for one too few, for just these and for more; of a number that isn't given, for 64 words. */
enum { ROOMS = 4 };

static size_t room_for(size_t words, size_t i)
{
    size_t bytes = words <= MOST_WORDS ? 4 * words : OUTPUT;
    const size_t rooms[ROOMS] = {0, bytes - (bytes > 0), bytes, bytes + 3};

    return rooms[i];
}

/* 12, then what the record itself is answered, then 2. */
static uint64_t first(size_t words, uint64_t itself, size_t out_len)
{
    if (words < 1 || words > MOST_WORDS)
        return LUFFA_WORDS;
    if (itself != LUFFA_DONE)
        return itself;
    return out_len < 4 * words ? LUFFA_OUT : LUFFA_DONE;
}

/* Each of 1, 12, 2 and 17 alone and with every other. */
static void one_call(size_t code)
{
    static const size_t odds[] = {0, 1, MOST_ODD, MOST_ODD + 1, 256, SIZE_MAX}, lengths[] = {0, 33};

    for (size_t i = 0; i < NUMBERS; i++)
        for (size_t room = 0; room < ROOMS; room++)
            for (size_t k = 0; k < COUNT_OF(odds); k++)
                for (size_t m = 0; m < COUNT_OF(lengths); m++) {
                    size_t words = number_of_words(i), out_len = room_for(words, room);
                    uint64_t want = code < 1 || code > 4 ? LUFFA_WIDTH : first(words, LUFFA_DONE, out_len);
                    if (want == LUFFA_DONE && (odds[k] > MOST_ODD || (odds[k] > 0 && lengths[m] == 0)))
                        want = LUFFA_ODD;
                    output_bits_call(want, code, words, message, lengths[m], odds[k], out_len, NULL);
                }
}

/* Every buffer that is too short, down to none. */
static void short_buffers(size_t words)
{
    uint8_t record[LUFFA_RECORD_BYTES];
    size_t code = 1 + words % 4;

    any_record(record, code, words);
    struct luffa_hash hash = in_struct(record);
    for (size_t out_len = 0; out_len < 4 * words; out_len++) {
        output_bits_call(LUFFA_OUT, code, words, message, words, 0, out_len, NULL);
        output_bits_call(LUFFA_OUT, code, words, message, words, 1 + words % MOST_ODD, out_len, NULL);
        finish_output_call(LUFFA_OUT, record, sizeof record, words, out_len, NULL);
        hash_finish_output_call(LUFFA_OUT, &hash, words, out_len, NULL);
    }
}

/* Each of 12, 3 and 2 alone and with every other, of a record or, where there is none, of a struct, which is
   answered 3 itself where it is malformed. */
static void asked(uint64_t itself, const uint8_t *record, size_t record_len, const struct luffa_hash *hash)
{
    for (size_t i = 0; i < NUMBERS; i++)
        for (size_t room = 0; room < ROOMS; room++) {
            size_t words = number_of_words(i), out_len = room_for(words, room);
            uint64_t want = first(words, itself, out_len);
            if (record != NULL)
                finish_output_call(want, record, record_len, words, out_len, NULL);
            else
                hash_finish_output_call(want, hash, words, out_len, NULL);
        }
}

/* A record with another byte, which makes it malformed, and a struct of the same, unless it doesn't hold the byte. */
static void asked_with(const uint8_t *record, size_t at, uint8_t value)
{
    uint8_t changed[LUFFA_RECORD_BYTES];

    memcpy(changed, record, sizeof changed);
    changed[at] = value;
    struct luffa_hash hash = in_struct(changed);
    asked(LUFFA_RECORD, changed, sizeof changed, NULL);
    if (at < 2 || at >= STATE)
        asked(LUFFA_RECORD, NULL, 0, &hash);
}

/* Some ways in which a record and a struct can be malformed; malformed.c and lent.c have every one. */
static void from_record(size_t code, size_t odd)
{
    static const size_t lengths[] = {0, 1, 208, LUFFA_RECORD_BYTES - 1, LUFFA_RECORD_BYTES + 1, 2 * LUFFA_RECORD_BYTES};
    uint8_t record[2 * LUFFA_RECORD_BYTES] = {0};

    any_odd_record(record, code, 41, odd);
    struct luffa_hash good = in_struct(record), hash;
    asked(LUFFA_DONE, record, LUFFA_RECORD_BYTES, NULL);
    asked(LUFFA_DONE, NULL, 0, &good);
    for (size_t i = 0; i < COUNT_OF(lengths); i++)
        asked(LUFFA_RECORD, record, lengths[i], NULL);
    asked_with(record, 0, 0);
    asked_with(record, 0, 5);
    asked_with(record, 0, 255);
    asked_with(record, 1, MOST_ODD + 1);
    asked_with(record, 2, 1);
    asked_with(record, PENDING + 31, 1);
    asked_with(record, COUNT, 0xff);
    for (size_t i = 0; i < COUNT_OF(no_code); i++) {
        hash = good;
        hash.code = no_code[i];
        asked(LUFFA_RECORD, NULL, 0, &hash);
    }
    for (size_t i = 0; i < COUNT_OF(no_odd); i++) {
        hash = good;
        hash.odd = no_odd[i];
        asked(LUFFA_RECORD, NULL, 0, &hash);
    }
}

int main(void)
{
    known_answers();
    fill(message, sizeof message);
    for (size_t words = 1; words <= MOST_WORDS; words++)
        short_buffers(words);
    for (size_t i = 0; i < COUNT_OF(no_code); i++)
        one_call(no_code[i]);
    for (size_t code = 1; code <= 4; code++) {
        for (size_t bits = 0; bits <= 520; bits += bits < 264 || bits > 500 ? 1 : 13)
            of_message(code, bits, bits % 66 == 0 || bits == 255 ? 1 : MOST_WORDS);
        for (size_t n = 0; n < sizeof message; n++)
            digests(code, n);
        cuts(code, 70, 0);
        for (size_t odd = 1; odd <= MOST_ODD; odd++)
            cuts(code, 9 + 4 * odd, odd);
        for (size_t k = 0; k <= 32; k++)
            for (size_t odd = 0; odd <= MOST_ODD; odd += 1 + k % MOST_ODD) {
                any_state(code, k, odd);
                any_state(code, most_bytes(code) - k, odd);
            }
        one_call(code);
        from_record(code, 0);
        from_record(code, 1 + code);
    }
    return 0;
}
