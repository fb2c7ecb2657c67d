/* The functions of url.h. */
#define _POSIX_C_SOURCE 200809L
#include "url.h"
#include "say.h"
#include "text.h"
#include <stdlib.h>
#include <string.h>

#if defined(__GNUC__)
__attribute__((noreturn))
#endif
static void not_so(int has_sheet, const char *why)
{
    stop(USAGE, "%s: %s is named postgresql://[USER@][HOST[:PORT]]/DATABASE%s[?PARAMETERS].", why,
         has_sheet ? "a sheet in a database" : "a database", has_sheet ? "/SHEET" : "");
}

/* The sheet's name, in which % and two digits stand for a byte. Only what can be shown is a name: so there is no byte
   zero in it, and it is UTF-8, which the database asks for. */
static void read_name(struct url *url, const char *from, size_t len)
{
    char shown[TEXT_MOST(SHEET_NAME_MOST)];
    size_t n = 0, backslashes = 0;

    for (size_t i = 0; i < len; i++, n++) {
        char c = from[i];
        if (n == SHEET_NAME_MOST)
            not_so(1, "The sheet's name is too long");
        if (c == '/')
            not_so(1, "A / in the sheet's name is to be written %2F");
        if (c == '%') {
            int high = i + 2 < len ? hex_digit(from[i + 1]) : -1, low = high < 0 ? -1 : hex_digit(from[i + 2]);
            if (low < 0)
                not_so(1, "A % in the sheet's name is to be followed by two digits");
            c = (char)(16 * high + low);
            i += 2;
        }
        url->name[n] = c;
        backslashes += c == '\\';
    }
    url->name[n] = 0;
    if (n == 0)
        not_so(1, "The sheet has no name");
    if (text_from_bytes(shown, (const uint8_t *)url->name, n) != n + backslashes)
        not_so(1, "The sheet's name has something in it that can't be shown");
}

/* Adds some of the characters. */
static char *add(char *to, const char *from, size_t n)
{
    memcpy(to, from, n);
    to[n] = 0;
    return to + n;
}

/* Whether a parameter may be shown. A % in its keyword could hide what it is from us, but not from libpq. */
static int may_show(const char *parameter)
{
    size_t len = strcspn(parameter, "=&");

    return !memchr(parameter, '%', len) && strncmp(parameter, "password=", 9) != 0 &&
           strncmp(parameter, "sslpassword=", 12) != 0;
}

/* Adds the parameters but for passwords. */
static void add_shown(char *to, const char *query)
{
    char between = '?';

    while (*query) {
        size_t len = strcspn(++query, "&");
        if (may_show(query)) {
            *to++ = between;
            to = add(to, query, len);
            between = '&';
        }
        query += len;
    }
    *to = 0;
}

/* Refuses what libpq would take for something else than was meant, and name in its words: what may be a part of a
   password is then never shown. */
static void check_parts(const char *authority, const char *path, const char *end, int has_sheet)
{
    const char *at = memchr(authority, '@', (size_t)(path - authority)), *host = at ? at + 1 : authority;

    if (memchr(host, '@', (size_t)(end - host)))
        not_so(has_sheet, "An @ in a name or a password is to be written %40");
    while (host < path) {
        size_t len = strcspn(host, ",/?"), name = host[0] == '[' ? strcspn(host, "],/?") : strcspn(host, ":,/?");
        const char *port = host + name + (host[name] == ']');

        if (port < host + len && (*port != ':' || strspn(port + 1, "0123456789") != (size_t)(host + len - port) - 1))
            not_so(has_sheet, "A port is digits alone");
        host += len + (host[len] == ',');
    }
}

void url_read(struct url *url, const char *given, int has_sheet)
{
    const char *authority = strstr(given, "://"), *path, *at, *colon, *query, *sheet;
    char *to;

    if (strncmp(given, "postgresql://", 13) != 0 && strncmp(given, "postgres://", 11) != 0)
        not_so(has_sheet, "That is no database");
    authority += 3;
    path = authority + strcspn(authority, "/?");
    query = path + strcspn(path, "?");
    if (path == query || path + 1 == query || path[1] == '/')
        not_so(has_sheet, "No database is named");
    sheet = path + 1 + strcspn(path + 1, "/?");
    check_parts(authority, path, sheet, has_sheet);
    if (has_sheet && sheet == query)
        not_so(1, "No sheet is named");
    if (!has_sheet && sheet < query)
        not_so(0, "There is more than a database");
    url->name[0] = 0;
    if (has_sheet)
        read_name(url, sheet + 1, (size_t)(query - sheet) - 1);
    url->uri = malloc(strlen(given) + 1);
    url->shown = malloc(strlen(given) + 1);
    if (!url->uri || !url->shown)
        stop_failed(FAILED, "Can't read", "the name");
    to = add(url->uri, given, (size_t)(sheet - given));
    add(to, query, strlen(query));

    /* What stands before an @ is the user, and behind a colon there the password. */
    at = memchr(authority, '@', (size_t)(path - authority));
    colon = at ? memchr(authority, ':', (size_t)(at - authority)) : NULL;
    to = add(url->shown, given, (size_t)((colon ? colon : at ? at : authority) - given));
    to = add(to, at ? at : authority, (size_t)(query - (at ? at : authority)));
    add_shown(to, query);
}
