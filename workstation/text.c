/* The functions of text.h. */
#include "text.h"
#include <stdlib.h>
#include <string.h>

/* The length of the UTF-8 character at the beginning of n bytes, n > 0, and its number; 0 where there is none. */
static size_t character(const uint8_t *bytes, size_t n, uint32_t *number)
{
    static const uint32_t least[] = {0, 0, 0x80, 0x800, 0x10000};
    uint8_t first = bytes[0];
    size_t len = first < 0x80 ? 1 : first < 0xc0 ? 0 : first < 0xe0 ? 2 : first < 0xf0 ? 3 : first < 0xf8 ? 4 : 0;

    if (len == 0 || len > n)
        return 0;
    *number = len == 1 ? first : first & (0xffu >> (len + 1));
    for (size_t i = 1; i < len; i++) {
        if ((bytes[i] & 0xc0) != 0x80)
            return 0;
        *number = *number << 6 | (bytes[i] & 0x3fu);
    }
    return *number < least[len] || *number > 0x10ffff || (*number >= 0xd800 && *number < 0xe000) ? 0 : len;
}

/* Not printable: controls, line and paragraph separators, marks of invisible direction and order, and what is set
   aside for no character. */
static int printable(uint32_t c)
{
    return c >= 0x20 && (c < 0x7f || c >= 0xa0) && c != 0xad && c != 0x61c && !(c >= 0x200b && c <= 0x200f) &&
           !(c >= 0x2028 && c <= 0x202e) && !(c >= 0x2060 && c <= 0x206f) && c != 0xfeff &&
           !(c >= 0xfff9 && c <= 0xfffb) && (c & 0xfffe) != 0xfffe && !(c >= 0xfdd0 && c <= 0xfdef) && c != 0x180e &&
           !(c >= 0x1bca0 && c <= 0x1bca3) && !(c >= 0x1d173 && c <= 0x1d17a) && !(c >= 0xe0000 && c <= 0xe0fff);
}

size_t text_from_bytes(char *text, const uint8_t *bytes, size_t n)
{
    static const char digits[] = "0123456789abcdef";
    char *to = text;

    for (size_t i = 0; i < n;) {
        uint32_t number = 0;
        size_t len = character(bytes + i, n - i, &number);

        if (len > 0 && printable(number) && number != '\\') {
            memcpy(to, bytes + i, len);
            to += len;
            i += len;
        } else if (bytes[i] == '\\') {
            *to++ = '\\';
            *to++ = '\\';
            i++;
        } else {
            *to++ = '\\';
            *to++ = 'x';
            *to++ = digits[bytes[i] >> 4];
            *to++ = digits[bytes[i] & 15];
            i++;
        }
    }
    *to = 0;
    return (size_t)(to - text);
}

void text_put(FILE *to, const char *bytes)
{
    size_t n = strlen(bytes);
    char *text = malloc(TEXT_MOST(n));

    if (text) {
        text_from_bytes(text, (const uint8_t *)bytes, n);
        fputs(text, to);
    }
    free(text);
}

void name_in_file(char *to, const char *name)
{
    for (; *name; name++)
        if ((*name >= 'a' && *name <= 'z') || (*name >= 'A' && *name <= 'Z') || (*name >= '0' && *name <= '9') ||
            strchr("-_.", *name))
            *to++ = *name;
        else
            to += sprintf(to, "%%%02x", (unsigned)(uint8_t)*name);
    *to = 0;
}

int hex_digit(char c)
{
    return c >= '0' && c <= '9'   ? c - '0'
           : c >= 'a' && c <= 'f' ? c - 'a' + 10
           : c >= 'A' && c <= 'F' ? c - 'A' + 10
                                  : -1;
}

long bytes_from_text(uint8_t *bytes, size_t most, const char *text, size_t len, size_t *at, const char **why)
{
    size_t n = 0;

    for (size_t i = 0; i < len;) {
        uint8_t byte = (uint8_t)text[i];
        size_t took = 1;

        *at = i;
        if (text[i] == '\\') {
            if (i + 1 < len && text[i + 1] == '\\') {
                took = 2;
            } else if (i + 3 < len && text[i + 1] == 'x' && hex_digit(text[i + 2]) >= 0 &&
                       hex_digit(text[i + 3]) >= 0) {
                byte = (uint8_t)(hex_digit(text[i + 2]) << 4 | hex_digit(text[i + 3]));
                took = 4;
            } else {
                *why = "a backslash stands before another one, or before x and two hexadecimal digits";
                return -1;
            }
        }
        if (n == most) {
            *why = "the text is too long";
            return -1;
        }
        bytes[n++] = byte;
        i += took;
    }
    return (long)n;
}
