/* The portable C Luffa that the archive is compared with: calls of the same form as luffa_digest, luffa_digest_bits and, but for its rounds,
   luffa_output_bits of include/luffa.h, so that the benchmark holds both in one type. */
#ifndef PORTABLE_H
#define PORTABLE_H

#include <stddef.h>
#include <stdint.h>

/* 0 = done; 1 = the code isn't 1 to 4; 2 = the output buffer is shorter than the digest. */
uint32_t portable_digest(size_t code, const uint8_t *message, size_t message_len, uint8_t *out, size_t out_len);

/* The same of a message whose last byte has odd bits. They are 0 to 7, and 0 where there is no byte; that isn't judged. */
uint32_t portable_digest_bits(size_t code, const uint8_t *message, size_t message_len, size_t odd, uint8_t *out, size_t out_len);

/* So many words of output. That they are 1 or more isn't judged; 2 = the output buffer is shorter than they are. */
uint32_t portable_output_bits(size_t code, size_t words, const uint8_t *message, size_t message_len, size_t odd, uint8_t *out, size_t out_len);

#endif
