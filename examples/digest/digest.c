/* Prints the 256-bit Luffa digest of standard input, which it hashes in pieces. To build it:
   gcc -Iinclude examples/digest/digest.c target/staticlib/libluffa.a -o digest
*/
#include <luffa.h>
#include <stdio.h>

int main(void)
{
    uint8_t record[LUFFA_RECORD_BYTES], piece[65536], digest[LUFFA_256_BYTES];
    size_t n;

    if (luffa_start(LUFFA_256, record, sizeof record) != LUFFA_DONE)
        return 1;
    while ((n = fread(piece, 1, sizeof piece, stdin)) > 0)
        if (luffa_feed(record, sizeof record, piece, n) != LUFFA_DONE)
            return 1;
    if (ferror(stdin) || luffa_finish(record, sizeof record, digest, sizeof digest) != LUFFA_DONE)
        return 1;
    for (n = 0; n < sizeof digest; n++)
        printf("%02x", digest[n]);
    puts("");
    return fflush(stdout) != 0;
}
