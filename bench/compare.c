/* Two archives, each loaded as a shared object with works.c: for every work and code the ratio of their times, new / old. The two take turns
   in the same memory, so that what the machine does meanwhile meets both; the median of the rounds counts. --check leaves out the clock. */
#define _GNU_SOURCE
#include "works.h"

#include <dlfcn.h>
#include <stdio.h>
#include <stdlib.h>
#include <string.h>
#include <time.h>

enum { ROUNDS = 81, OLD = 0, NEW = 1 };

/* A shared object's works and the way to its jobs. */
static struct side {
    const struct measured *works;
    measured_job *prepared;
    measured_outcome *outcome;
} sides[2];

static uint8_t message[LONGEST];
static _Alignas(64) uint8_t room[ROOM_BYTES];

static void *symbol(void *object, const char *name)
{
    void *found = dlsym(object, name);

    if (found == NULL) {
        fprintf(stderr, "compare: %s\n", dlerror());
        exit(2);
    }
    return found;
}

static struct side side_of(const char *file)
{
    struct side side;
    measured_works *works_of;
    void *object = dlopen(file, RTLD_NOW | RTLD_LOCAL);

    if (object == NULL) {
        fprintf(stderr, "compare: %s\n", dlerror());
        exit(2);
    }
    /* C has no cast from an object's address to a function's. */
    *(void **)&works_of = symbol(object, "works");
    *(void **)&side.prepared = symbol(object, "prepared");
    *(void **)&side.outcome = symbol(object, "outcome");
    side.works = works_of();
    return side;
}

/* Both answer 0 and leave the same in the whole output buffer. */
static int same(size_t w, size_t code)
{
    uint8_t out[2][OUT_BYTES];
    uint32_t answers = DONE;

    for (unsigned s = OLD; s <= NEW; s++) {
        const struct measured *m = &sides[s].works[w];
        answers |= sides[s].outcome(m, sides[s].prepared(m, code, message, room), out[s]);
    }
    return answers == DONE && memcmp(out[OLD], out[NEW], sizeof out[OLD]) == 0;
}

static int by_size(const void *a, const void *b)
{
    double x = *(const double *)a, y = *(const double *)b;
    return (x > y) - (x < y);
}

/* Nanoseconds of the processor's time: unlike the ticks of rdtsc they leave out what other programs ran meanwhile. Each turn makes its own
   job, before the clock starts, as the other side's can have another form. */
static double spent(const struct side *side, size_t w, size_t code)
{
    const struct measured *m = &side->works[w];
    struct job *job = side->prepared(m, code, message, room);
    struct timespec start, end;

    clock_gettime(CLOCK_THREAD_CPUTIME_ID, &start);
    for (unsigned i = 0; i < m->runs; i++)
        m->run(job);
    clock_gettime(CLOCK_THREAD_CPUTIME_ID, &end);
    return (double)(end.tv_sec - start.tv_sec) * 1e9 + (double)(end.tv_nsec - start.tv_nsec);
}

/* The ratios of all rounds, the smallest first. A round is one, the other twice, the one again: what grows or falls evenly meanwhile adds the
   same to both. Who begins changes from round to round. */
static void ratios(size_t w, size_t code, double *ratio)
{
    for (unsigned i = 0; i < ROUNDS; i++) {
        double time[2] = {0, 0};
        const unsigned one = i % 2, turns[4] = {one, 1 - one, 1 - one, one};

        for (unsigned k = 0; k < COUNT(turns); k++)
            time[turns[k]] += spent(&sides[turns[k]], w, code);
        ratio[i] = time[NEW] / time[OLD];
    }
    qsort(ratio, ROUNDS, sizeof *ratio, by_size);
}

/* Compares every work at every code, and prints the ratios unless the clock is left out. */
static int compared(int only_check)
{
    double largest = 0;
    const char *largest_name = "";
    size_t largest_code = 0, w;

    for (w = 0; sides[OLD].works[w].name != NULL; w++) {
        const char *name = sides[OLD].works[w].name;
        if (!only_check)
            printf("%-36s", name);
        for (size_t code = 1; code <= CODES; code++) {
            double ratio[ROUNDS];

            if (!same(w, code)) {
                printf("\nDIFFERENT: %s, code %zu: the two archives don't give the same\n", name, code);
                return 0;
            }
            if (only_check)
                continue;
            ratios(w, code, ratio);
            double median = ratio[ROUNDS / 2];
            printf("  %.3f (%.3f to %.3f)", median, ratio[ROUNDS / 4], ratio[ROUNDS - 1 - ROUNDS / 4]);
            fflush(stdout);
            if (median > largest) {
                largest = median;
                largest_name = name;
                largest_code = code;
            }
        }
        if (!only_check)
            printf("\n");
    }
    if (only_check)
        printf("the same digests: %zu works at codes 1 to %d\n", w, CODES);
    else
        printf("\nlargest ratio: %.3f, %s, code %zu\n", largest, largest_name, largest_code);
    return 1;
}

int main(int argc, char **argv)
{
    int only_check = argc == 4 && strcmp(argv[1], "--check") == 0;

    if (argc != 3 && !only_check) {
        fprintf(stderr, "usage: compare [--check] OLD.so NEW.so\n");
        return 2;
    }
    sides[OLD] = side_of(argv[argc - 2]);
    sides[NEW] = side_of(argv[argc - 1]);
    fill(message, LONGEST);

    if (!only_check) {
        printf("New / old, median of %d rounds in turns; in brackets half of the rounds, the middle ones\n\n%-36s", ROUNDS, "");
        for (size_t code = 1; code <= CODES; code++)
            printf("  code %-17zu", code);
        printf("\n");
    }
    return compared(only_check) ? 0 : 1;
}
