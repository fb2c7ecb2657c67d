/* A state by columns: there and back, its injection against the one on words, and what these cost. */
#include "columns.h"
#include "bench.h"
#include "plain.h"

#include <stdio.h>

/* The word form: 3.2 on 8w words where they stand, by plain.h as portable.c has it in its rounds. It is a call, so that the state is read from memory
   and written there each time, as a dump is. The message is doubled on the way, so it is copied first, within the call: handed
   over in memory, the message would make it cost half as much again at w = 3. */
__attribute__((noinline)) static void inject_words(size_t w, uint32_t *state, const uint8_t *words)
{
    uint32_t(*h)[8] = (uint32_t(*)[8])state, m[8];

    memcpy(m, words, sizeof m);
    switch (w) {
    case 3: inject3(h, m); break;
    case 4: inject4(h, m); break;
    default: inject5(h, m); break;
    }
}

/* The message's first 32 bytes are taken for its words. */
static uint32_t on_words(struct job *job)
{
    inject_words(WIDTH[job->code], job->hash.state, job->message);
    return LUFFA_DONE;
}

static int differ(const char *what, size_t code)
{
    printf("DIFFERENT: code %zu, %s\n", code, what);
    return 0;
}

/* Bytes as a state, as a dump, and with those after them as a message block. */
static int is_right(size_t code, const uint8_t *bytes)
{
    size_t w = WIDTH[code], n = 8 * w, len = 32 * w;
    uint32_t state[MOST_STATE], words[MOST_STATE], m[8];
    uint8_t dump[MOST_DUMP], other[MOST_DUMP], message[BLOCK];

    memcpy(state, bytes, len);
    if (luffa_columns_from_words(code, state, n, dump, len) != LUFFA_DONE || luffa_words_from_columns(code, dump, len, words, n) != LUFFA_DONE ||
        memcmp(words, state, len) != 0)
        return differ("a state by columns and back", code);
    if (luffa_words_from_columns(code, bytes, len, words, n) != LUFFA_DONE || luffa_columns_from_words(code, words, n, other, len) != LUFFA_DONE ||
        memcmp(other, bytes, len) != 0)
        return differ("a dump to words and back", code);

    load(m, bytes + len);
    inject_words(w, state, (const uint8_t *)m);
    if (luffa_columns_from_message(bytes + len, BLOCK, message, BLOCK) != LUFFA_DONE ||
        luffa_columns_inject(code, dump, len, message, BLOCK) != LUFFA_DONE || luffa_words_from_columns(code, dump, len, words, n) != LUFFA_DONE ||
        memcmp(words, state, len) != 0)
        return differ("the injection by columns and on words", code);
    return 1;
}

int check_columns(const uint8_t *message)
{
    enum { STATES = 1000 };
    size_t compared = 0;

    for (size_t code = 1; code <= CODES; code++)
        for (size_t i = 0; i < STATES; i++, compared++)
            if (!is_right(code, message + (MOST_DUMP + BLOCK) * i))
                return 0;
    printf("the same states by columns and back, and injections by columns and on words: %zu, at codes 1 to %d\n", compared, CODES);
    return 1;
}

/* A conversion moves 256w bits. By product tables an injection looks up, at each of 32 positions, the byte of each block and of the message once for
   every number in its column of the matrix; on words it is doublings and additions, which the compiler finds vectors in. */
void columns(const uint8_t *message)
{
    static const struct length LENGTH = {BLOCK, 100, 2000};
    static const double CONVERSION_BAR = 2000, BAR = 3;
    enum { TO_COLUMNS, TO_WORDS, INJECT, ON_WORDS };
    static work *const RUNS[] = {archive_columns_from_words, archive_words_from_columns, archive_columns_inject, on_words};
    double slower = 0;

    printf("\nStates by columns, cycles per call: from words, to words, and injection with its ratio to that on words, best of each, in turns\n\n");
    printf("code     from       to   inject    words   ratio\n");
    for (size_t code = 1; code <= CODES; code++) {
        struct job job = job_of(code, message, LENGTH.len);
        double best[COUNT(RUNS)];
        race(RUNS, COUNT(RUNS), &job, &LENGTH, best);
        double ratio = best[INJECT] / best[ON_WORDS];
        printf("%4zu %8.0f %8.0f %8.0f %8.0f %7.3f   at most %.2f: %s\n", code, BLOCK * best[TO_COLUMNS], BLOCK * best[TO_WORDS],
               BLOCK * best[INJECT], BLOCK * best[ON_WORDS], ratio, BAR, verdict(ratio, BAR));
        fflush(stdout);
        slower = BLOCK * (best[TO_COLUMNS] > best[TO_WORDS] ? best[TO_COLUMNS] : best[TO_WORDS]);
    }
    printf("conversion at code %d, the slower way: %.0f cycles   at most %.0f: %s\n", CODES, slower, CONVERSION_BAR, verdict(slower, CONVERSION_BAR));
}
