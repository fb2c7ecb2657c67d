/* The functions of say.h. */
#include "say.h"
#include "text.h"
#include <errno.h>
#include <luffa.h>
#include <stdarg.h>
#include <stdio.h>
#include <stdlib.h>
#include <string.h>

const char *closing = "", *going_on = "";

void stop(int status, const char *words, ...)
{
    char message[2048];
    va_list arguments;

    fflush(stdout);
    va_start(arguments, words);
    vsnprintf(message, sizeof message, words, arguments);
    va_end(arguments);
    fputs("plan: ", stderr);
    text_put(stderr, message);
    fprintf(stderr, "%s%s\n", closing, going_on);
    exit(status);
}

void stop_failed(int status, const char *doing, const char *name)
{
    stop(status, "%s %s: %s.", doing, name, strerror(errno));
}

const char *sentence(uint64_t answer)
{
    static const char *const sentences[] = {
        [LUFFA_DONE] = "Done.",
        [LUFFA_WIDTH] = "There is no such code: 1 is 224 bits, 2 is 256, 3 is 384 and 4 is 512.",
        [LUFFA_FULL] = "The sheet is full: it has 1,024 records, and takes no more.",
        [LUFFA_CLAIM] = "The digest that was given hasn't the length of this sheet's digests.",
        [LUFFA_STALE] = "The sheet has changed since it was opened.",
        [LUFFA_BATCH] = "There are too many sheets: a statement takes 64.",
        [LUFFA_STALE_TAIL] = "The sheet has changed since it was opened.",
        [LUFFA_HOPS] = "There are too many hops: they are 0 to 3.",
        [LUFFA_UNSOUND] = "The sheet isn't sound.",
        [LUFFA_WELL] = "No record of the sheet has this number.",
    };

    if (answer < sizeof sentences / sizeof *sentences && sentences[answer])
        return sentences[answer];
    return "An answer that this call shouldn't give: a fault of this program.";
}

void print_digest(FILE *to, const uint8_t *digest, size_t n)
{
    fputs("digest ", to);
    for (size_t i = 0; i < n; i++)
        fprintf(to, "%02x", digest[i]);
    putc('\n', to);
}

/* Within '..' all but a quote stands for itself; what can't be shown is escaped within $'..'. */
void put_word(FILE *to, const char *word)
{
    static const char plain[] = "abcdefghijklmnopqrstuvwxyzABCDEFGHIJKLMNOPQRSTUVWXYZ0123456789-_./:@=";
    size_t n = strlen(word), backslashes = 0;
    char *text = malloc(TEXT_MOST(n));
    int as_it_is;

    if (n > 0 && word[strspn(word, plain)] == 0) {
        fputs(word, to);
    } else if (text) {
        for (size_t i = 0; i < n; i++)
            backslashes += word[i] == '\\';
        as_it_is = text_from_bytes(text, (const uint8_t *)word, n) == n + backslashes;
        fputs(as_it_is ? "'" : "$'", to);
        for (const char *c = as_it_is ? word : text; *c; c++)
            if (*c == '\'')
                fputs(as_it_is ? "'\\''" : "\\'", to);
            else
                putc(*c, to);
        putc('\'', to);
    }
    free(text);
}

const char *many(uint64_t n)
{
    return n == 1 ? "" : "s";
}

int printed(int status)
{
    if (fflush(stdout) == 0 && !ferror(stdout))
        return 0;
    stop(status, "The answer couldn't be printed%s", status == UNSURE ? ", but what was asked for is done." : ".");
}
