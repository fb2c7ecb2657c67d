/* What the tests of the CSV form and of the words share: random numbers, records of every kind, and a judge of what can
   be shown. */
#ifndef RECORDS_H
#define RECORDS_H

#include "../../workstation/well.h"

#define COUNT_OF(array) (sizeof(array) / sizeof *(array))

/* Ends the program with status 1 and the words given, unless the condition holds. */
void check(int holds, const char *words, ...) __attribute__((format(printf, 2, 3)));

/* Random numbers, the same ones after the same seed: below n, and whether one of n has come. */
void seed(uint64_t from);
size_t below(size_t n);
int one_in(size_t n);

/* Writes n bytes: any, or a note that is made to be awkward. */
void any_bytes(uint8_t *bytes, size_t n);
void any_note(uint8_t *bytes, size_t n);

/* A number, high byte first. */
uint32_t number_at(const uint8_t *bytes, size_t n);

/* A record as its 40 bytes, by another function than the workstation's, its note up to the zero that ends it. */
void put_well(uint8_t *record, const struct well *well, const char *note);

/* n records: wells, wells with something odd, noise and struck ones. The room behind them is zero. */
void any_list(struct list *list, size_t n);

/* Whether a character can be shown and alters nothing around it; and whether a text is UTF-8 of such alone. */
int can_be_shown(uint32_t character);
int all_shown(const char *text, size_t len);

#endif
