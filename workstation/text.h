/* Bytes as a text that can be shown anywhere: on a terminal, in a CSV file, in a page. */
#ifndef TEXT_H
#define TEXT_H

#include <stddef.h>
#include <stdint.h>
#include <stdio.h>

/* The most characters that n bytes take, and the zero that ends them. */
#define TEXT_MOST(n) (4 * (n) + 1)

/* Writes bytes as a text, at most TEXT_MOST(n) characters, and gives its length. Printable UTF-8 stands as it is, but
   a backslash is two; every byte of anything else is \x and two hexadecimal digits: controls, bytes that are no
   UTF-8, and characters that alter how others are shown. So nothing that a sheet holds can upset what shows it. */
size_t text_from_bytes(char *text, const uint8_t *bytes, size_t n);

/* The same onto a stream, of a name or another text that ends with a zero. */
void text_put(FILE *to, const char *bytes);

/* Reads such a text of `len` characters back into at most `most` bytes. Gives how many there are, or -1 with the place
   in the text at which it goes wrong, and why. Bytes that text_from_bytes would not leave alone are taken as they are.
 */
long bytes_from_text(uint8_t *bytes, size_t most, const char *text, size_t len, size_t *at, const char **why);

/* Writes a name as it can stand in a file's: letters, digits, dot, dash and underscore stand for themselves, every
   other byte as % and two digits. So two names never have one file. */
#define NAME_IN_FILE(n) (3 * (n) + 1)
void name_in_file(char *to, const char *name);

/* What a hexadecimal digit counts, or -1. */
int hex_digit(char c);

#endif
