/* What a record says of a well, and what is wrong with it, in words. luffa.h has the bytes. */
#ifndef WELL_H
#define WELL_H

#include "sheet.h"
#include "text.h"
#include <stdio.h>

enum { NOTE = RECORD - LUFFA_WELL_NOTE, LINKS = LUFFA_LINKS_MOST };

struct well {
    uint32_t number, kind, links, rate;
    struct {
        uint32_t injector, share;
    } link[LINKS];
    uint8_t note[NOTE];
    size_t note_len; /* the note's bytes before the zeros that fill it up */
};

/* Reads a record, any 40 bytes, and writes one. */
void well_read(struct well *well, const uint8_t *record);
void well_write(const struct well *well, uint8_t *record);

/* Whether the links that a well uses are four at most, and the others empty. */
int links_fit(const struct well *well);

/* Whether a record is struck: it has 40 zero bytes. */
int struck(const uint8_t *record);

/* The number of a well; 0 where the record is struck or has none. */
size_t well_number(const uint8_t *record);

/* The place of the only record with a number, or n where there is none, or n + 1 where there are several. */
size_t place_of(const struct list *list, size_t number);

/* A record in a few words, as "producer 1, 500 t a day: 14 500, 15 500; north", without its number where `numbered`
   is 0. */
#define WORDS_MOST 256
const char *well_words(char words[WORDS_MOST], const uint8_t *record, int numbered);

/* What the check of the library says of a list: null where it is sound, else the fault, as "place 17, well 23: the
   shares total 990, not 1000". */
const char *fault_words(char words[WORDS_MOST], const struct list *list);

#endif
