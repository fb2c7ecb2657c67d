/* The C Luffa with SSE2 intrinsics that the archive is compared with: calls of the same form as luffa_digest and portable_output_bits. */
#ifndef SSE2_H
#define SSE2_H

#include <stddef.h>
#include <stdint.h>

/* 0 = done; 1 = the code isn't 1 to 4; 2 = the output buffer is shorter than the digest. */
uint32_t sse2_digest(size_t code, const uint8_t *message, size_t message_len, uint8_t *out, size_t out_len);

uint32_t sse2_output_bits(size_t code, size_t words, const uint8_t *message, size_t message_len, size_t odd, uint8_t *out, size_t out_len);

#endif
