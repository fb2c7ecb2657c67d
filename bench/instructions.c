/* Runs a work of works.c so often, for bench/instructions to count what that takes: `instructions WORK CODE RUNS`. Without arguments it lists
   the works that are short enough, each with its number and the pieces that a run feeds. */
#include "works.h"

#include <stdio.h>
#include <stdlib.h>

/* Of a longer message the rounds are nearly all, and the emulator writes a line for each instruction. */
enum { SHORT = 64 };

int main(int argc, char **argv)
{
    static uint8_t message[LONGEST], out[OUT_BYTES];
    static _Alignas(64) uint8_t room[ROOM_BYTES];
    const struct measured *all = works();

    if (argc == 1) {
        for (size_t w = 0; all[w].name != NULL; w++)
            if (all[w].records == 0 && all[w].len <= SHORT)
                printf("%zu %zu %s\n", w, all[w].piece > 0 ? all[w].len : 1, all[w].name);
        return 0;
    }
    if (argc != 4)
        return 2;
    const struct measured *m = &all[strtoul(argv[1], NULL, 10)];
    unsigned long runs = strtoul(argv[3], NULL, 10);
    fill(message, SHORT);
    struct job *job = prepared(m, strtoul(argv[2], NULL, 10), message, room);

    for (unsigned long i = 0; i < runs; i++)
        m->run(job);
    return outcome(m, job, out) == DONE ? 0 : 1;
}
