/* From a message to its output, over the function `rounds` of the file that includes this, which runs the rounds of whole message blocks (3.2).
   OUTPUT_BITS is the name that this one gets; it is a part of the file, so that each compiler's inlining sees its rounds. */
uint32_t OUTPUT_BITS(size_t code, size_t words, const uint8_t *message, size_t message_len, size_t odd, uint8_t *out, size_t out_len)
{
    static const size_t WIDTH[] = {0, 3, 3, 4, 5};
    uint32_t h[MOST_BLOCKS][8];
    uint8_t block[BLOCK_BYTES] = {0};
    size_t bytes = message_len - (odd > 0), whole = bytes / BLOCK_BYTES, rest = bytes % BLOCK_BYTES;

    if (code < 1 || code > 4)
        return 1;
    size_t w = WIDTH[code];
    if (out_len < 4 * words)
        return 2;

    memcpy(h, START, sizeof h);
    rounds(w, h, message, whole);

    /* 3.1: the bytes left over and the odd bits, then a bit 1, then zeros. */
    if (rest > 0)
        memcpy(block, message + whole * BLOCK_BYTES, rest);
    if (odd > 0)
        block[rest] = (uint8_t)(message[bytes] & ~(0xff >> odd));
    block[rest] |= (uint8_t)(0x80 >> odd);
    rounds(w, h, block, 1);

    /* 3.3 and 5: a round with a zero block goes before each Z_i. */
    memset(block, 0, sizeof block);
    for (size_t i = 0; i < words; i++) {
        uint32_t z = 0;
        if (i % 8 == 0)
            rounds(w, h, block, 1);
        for (size_t j = 0; j < w; j++)
            z ^= h[j][i % 8];
        store(out + 4 * i, z);
    }
    return 0;
}

static inline size_t digest_words(size_t code)
{
    static const size_t DIGEST_WORDS[] = {0, 7, 8, 12, 16};

    return DIGEST_WORDS[code];
}
