/*
 * luffa.h: Luffa digests (Luffa specification 2.0.1) of 224, 256, 384 and 512 bits, in one call or
 * piece by piece, of messages that may stop inside a byte, also back over a block that was fed, with longer
 * output where it is wanted, a controller's state by columns, a sheet of records that is saved under its
 * digest, and what its records mean: whether they are sound, what they send, and who depends on whom.
 *
 * Every call answers a number: LUFFA_DONE, or the first refusal that holds, in the order listed at
 * the call. A refused call has altered nothing, so look at the answer before you use a buffer. The
 * calls allocate nothing and keep nothing; any number of threads may make them at once.
 *
 * The caller's duties, which no call can judge:
 *   - Each pointer is valid for the length that follows it: for reading, and for writing too unless
 *     it points to const. Where the length is 0 the pointer may be null. Lengths are in bytes, those
 *     of words, marks, own, places, counts, intake and spare in elements, whatever size these have.
 *   - A buffer lent for writing overlaps no other buffer of the same call. So a claim isn't lent as
 *     the output buffer too.
 *   - Until the call returns, nobody else writes to a lent buffer or reads one lent for writing.
 */
#ifndef LUFFA_H
#define LUFFA_H

#include <stddef.h>
#include <stdint.h>

#ifdef __cplusplus
extern "C" {
#endif

/* Codes, and the bytes of the digest at each. LUFFA_512_BYTES are room enough for every code. */
#define LUFFA_224 1
#define LUFFA_256 2
#define LUFFA_384 3
#define LUFFA_512 4
#define LUFFA_224_BYTES 28
#define LUFFA_256_BYTES 32
#define LUFFA_384_BYTES 48
#define LUFFA_512_BYTES 64

/* A message has fewer than 2^64 bits at codes 1 and 2, and fewer than 2^128 at codes 3 and 4. This is
   the most whole bytes at codes 1 and 2, 2^61 - 1; seven bits more are still a message. */
#define LUFFA_LIMIT UINT64_C(0x1fffffffffffffff)

/* Answers. */
#define LUFFA_DONE 0
#define LUFFA_WIDTH 1  /* the code isn't 1 to 4 */
#define LUFFA_OUT 2    /* the output buffer is shorter than the digest, or than the words asked for */
#define LUFFA_RECORD 3 /* the hash record isn't well formed, or has another length */
#define LUFFA_LONG 4   /* the message would have too many bits for the code */
/* 5 to 11 are given by the sheet calls, and 5 by the calls on what a sheet means too. */
#define LUFFA_SHEET 5  /* too many records, or the buffer is too short for them */
#define LUFFA_MARKS 6  /* too few words for the marks */
#define LUFFA_PLACE 7  /* no record at this place */
#define LUFFA_FULL 8   /* no room for another record */
#define LUFFA_SIZE 9   /* the new record has another length */
#define LUFFA_CLAIM 10 /* the claimed digest has another length */
#define LUFFA_STALE 11 /* the claim isn't the digest of the sheet held */
/* 14 is given by luffa_sheet_batch. */
#define LUFFA_SET 14   /* too many changes in one save, or their places don't rise */
/* 15 and 16 are given by the saves that bring the planner's own marks; their 11 names a group. */
#define LUFFA_OWN 15        /* his own count or marks can't be those of a sheet at this code */
#define LUFFA_STALE_TAIL 16 /* as 11, but all marks that both sheets have agree */
/* 23 is given by luffa_sheet_close_up. */
#define LUFFA_PLACES 23 /* the list of places is shorter than the sheet has records */
/* 12 is given by the calls for longer output. */
#define LUFFA_WORDS 12 /* no word is asked for, or more than LUFFA_WORDS_MOST */
/* 13 and 25 are given by luffa_plan_brine. */
#define LUFFA_BATCH 13 /* too many sheets */
#define LUFFA_LIST 25  /* a list has fewer places than the batch has records */
/* 17 is given by the calls that take odd bits, or a piece for a record. */
#define LUFFA_ODD 17   /* no message has these odd bits, or it has ended with odd bits already */
/* 18 is given by luffa_back. */
#define LUFFA_BACK 18  /* the message doesn't end with a whole block, or the block has another length */
/* 19 to 22 are given by luffa_plan_reach. */
#define LUFFA_HOPS 19    /* more hops than LUFFA_HOPS_MOST */
#define LUFFA_UNSOUND 20 /* luffa_plan_check faults the sheet */
#define LUFFA_WELL 21    /* no record of the sheet has this number */
#define LUFFA_REACH 22   /* fewer bytes to mark than the sheet has records */
/* 24 is given by the calls on columns. */
#define LUFFA_COLUMNS 24 /* a dump, the words or the message block have another length */

/*
 * The digest of a whole message, in the first bytes of out. The bytes after it stay as they were.
 *   1 LUFFA_WIDTH   code isn't 1 to 4
 *   2 LUFFA_OUT     out_len is less than the digest's bytes at this code
 *   4 LUFFA_LONG    8 * message_len bits are 2^64 or more and code is 1 or 2
 */
uint32_t luffa_digest(size_t code, const uint8_t *message, size_t message_len, uint8_t *out, size_t out_len);

/*
 * The same of a message that stops inside a byte. With odd from 1 to 7 the message's last byte is the
 * odd byte: the message is the bits of the bytes before it, the highest of each first, and then the
 * `odd` highest bits of this one. Its other bits are ignored. With odd 0 it is luffa_digest.
 *   1 LUFFA_WIDTH   code isn't 1 to 4
 *   2 LUFFA_OUT     out_len is less than the digest's bytes at this code
 *  17 LUFFA_ODD     odd is over 7, or it isn't 0 and message_len is
 *   4 LUFFA_LONG    the bits are 2^64 or more and code is 1 or 2
 */
uint32_t luffa_digest_bits(size_t code, const uint8_t *message, size_t message_len, size_t odd, uint8_t *out,
                           size_t out_len);

/*
 * Longer output (section 5 of the specification): the words that a digest is the beginning of. `words`
 * is how many, 1 to LUFFA_WORDS_MOST, each four bytes, high byte first; they stand in the first bytes of
 * out, and the bytes after them stay as they were. At one code shorter output is the beginning of longer
 * output, and the digests at codes 1 to 4 are that of 7, 8, 12 and 16 words; codes 1 and 2 have the same
 * words. So whoever has a message's digest has the beginning of its output. Section 5 points out that "a
 * longer output with a small w does not improve the security level"; w is 3, 3, 4 and 5 at codes 1 to 4.
 */
#define LUFFA_WORDS_MOST 64

/* number is the answer. Where done, rounds are those of the final stage alone, words / 8 rounded up; where
   refused, 0. */
struct luffa_output_answer {
    uint64_t number, rounds;
};

/*
 * Longer output of a whole message.
 *   1 LUFFA_WIDTH   code isn't 1 to 4
 *  12 LUFFA_WORDS   words is 0 or over LUFFA_WORDS_MOST
 *   2 LUFFA_OUT     out_len is less than 4 * words
 *   4 LUFFA_LONG    8 * message_len bits are 2^64 or more and code is 1 or 2
 */
struct luffa_output_answer luffa_output(size_t code, size_t words, const uint8_t *message, size_t message_len,
                                        uint8_t *out, size_t out_len);

/*
 * The same of a message that may stop inside a byte, as in luffa_digest_bits. With odd 0 it is luffa_output.
 *   1 LUFFA_WIDTH   code isn't 1 to 4
 *  12 LUFFA_WORDS   words is 0 or over LUFFA_WORDS_MOST
 *   2 LUFFA_OUT     out_len is less than 4 * words
 *  17 LUFFA_ODD     odd is over 7, or it isn't 0 and message_len is
 *   4 LUFFA_LONG    the bits are 2^64 or more and code is 1 or 2
 */
struct luffa_output_answer luffa_output_bits(size_t code, size_t words, const uint8_t *message, size_t message_len,
                                             size_t odd, uint8_t *out, size_t out_len);

/*
 * A message in pieces: start a record, feed it every piece in turn, finish it.
 *
 * The record is 216 bytes that mean the same on every machine. It can be copied, stored and fed on
 * later, by another program too. What was fed can be partly read from it, so keep it as safe as
 * the message.
 *   byte 0             the code
 *   byte 1             the odd bits, 0 to 7: the message's bits after its last whole byte
 *   bytes 2 to 7       zero
 *   bytes 8 to 167     40 words of state, each high byte first. Codes 1 and 2 use the first 24,
 *                      code 3 the first 32 and code 4 all; the others are zero
 *   bytes 168 to 199   the last (count mod 32) whole bytes fed; where there are odd bits, the byte
 *                      whose highest bits they are, its other bits zero; then zeros
 *   bytes 200 to 215   count: the whole bytes fed so far, high byte first
 * It is well formed if it has this length, a code of 1 to 4, at most 7 odd bits, these zeros, and if
 * 8 * count and the odd bits together are fewer bits than 2^64 at codes 1 and 2, than 2^128 at codes
 * 3 and 4. Feed and finish take every well-formed record; who made it, they can't know. The records
 * of 208 bytes that version 1 wrote are refused.
 */
#define LUFFA_RECORD_BYTES 216

/* A block of the message, which luffa_back takes back as a whole, and its dump by columns. */
#define LUFFA_BLOCK_BYTES 32

/*
 * Makes the record of the empty message.
 *   1 LUFFA_WIDTH   code isn't 1 to 4
 *   3 LUFFA_RECORD  record_len isn't LUFFA_RECORD_BYTES
 */
uint32_t luffa_start(size_t code, uint8_t *record, size_t record_len);

/*
 * Adds a piece to the message. An empty piece changes nothing.
 *   3 LUFFA_RECORD  the record isn't well formed
 *  17 LUFFA_ODD     the record has odd bits: its message has ended, for an empty piece too
 *   4 LUFFA_LONG    the message would have too many bits for the record's code
 */
uint32_t luffa_feed(uint8_t *record, size_t record_len, const uint8_t *piece, size_t piece_len);

/*
 * The same of a piece that may stop inside a byte, as in luffa_digest_bits: with odd from 1 to 7 the
 * piece's last byte is the odd byte, and the message ends there. With odd 0 it is luffa_feed.
 *   3 LUFFA_RECORD  the record isn't well formed
 *  17 LUFFA_ODD     the record has odd bits; or odd is over 7, or it isn't 0 and piece_len is
 *   4 LUFFA_LONG    the message would have too many bits for the record's code
 */
uint32_t luffa_feed_bits(uint8_t *record, size_t record_len, const uint8_t *piece, size_t piece_len, size_t odd);

/*
 * Takes back the last block of the message, as where a logger sends it again. The block is lent as it was fed,
 * however it was cut then; the record becomes the one before it, its count LUFFA_BLOCK_BYTES less. A feed of the
 * same block then makes it the record that was lent, to the last byte. Likewise luffa_back, after a feed of a block
 * to a record without pending bytes, makes that record again.
 *
 * Which block was fed, the call can't know: with another one it is done too and leaves a well-formed record, but
 * never the earlier one. Nor can it know how a message began: at a count of LUFFA_BLOCK_BYTES every state is taken,
 * and the record that is left has count 0, but is luffa_start's only if this block was fed to that.
 *   3 LUFFA_RECORD  the record isn't well formed
 *  18 LUFFA_BACK    the record has pending bytes (its count isn't a multiple of LUFFA_BLOCK_BYTES) or odd bits,
 *                   its count is less than LUFFA_BLOCK_BYTES, or block_len isn't LUFFA_BLOCK_BYTES
 */
uint32_t luffa_back(uint8_t *record, size_t record_len, const uint8_t *block, size_t block_len);

/*
 * The digest of what was fed so far, in the first bytes of out. The bytes after it stay as they
 * were, and so does the record: it can be finished again or, without odd bits, fed on.
 *   3 LUFFA_RECORD  the record isn't well formed; its code is judged here, never as 1
 *   2 LUFFA_OUT     out_len is less than the digest's bytes at the record's code
 */
uint32_t luffa_finish(const uint8_t *record, size_t record_len, uint8_t *out, size_t out_len);

/*
 * Longer output of what was fed so far, as luffa_output gives it. The record stays as it was, so that
 * more words, or the digest, can be asked of it again.
 *  12 LUFFA_WORDS   words is 0 or over LUFFA_WORDS_MOST, whatever the record
 *   3 LUFFA_RECORD  the record isn't well formed; its code is judged here, never as 1
 *   2 LUFFA_OUT     out_len is less than 4 * words
 */
struct luffa_output_answer luffa_finish_output(const uint8_t *record, size_t record_len, size_t words, uint8_t *out,
                                               size_t out_len);

/*
 * The same within one program, over a struct that the caller lends: each feed alters it where it
 * stands, and no bytes are read or written as a record. Its fields are the record's, as the machine
 * holds them, its count in two words, and the same is well formed. To store it, to hand it to
 * another program or to take a block back, use a record. The pointer to it is valid and aligned,
 * never null; luffa_hash_start reads nothing from it that matters.
 */
struct luffa_hash {
    size_t code, odd;
    uint32_t state[40];
    uint8_t pending[32];
    uint64_t count_high, count_low;
};

/*
 * Makes the struct that of the empty message.
 *   1 LUFFA_WIDTH   code isn't 1 to 4
 */
uint32_t luffa_hash_start(size_t code, struct luffa_hash *hash);

/*
 * Adds a piece to the message. An empty piece changes nothing.
 *   3 LUFFA_RECORD  the struct isn't well formed
 *  17 LUFFA_ODD     the struct has odd bits: its message has ended, for an empty piece too
 *   4 LUFFA_LONG    the message would have too many bits for the struct's code
 */
uint32_t luffa_hash_feed(struct luffa_hash *hash, const uint8_t *piece, size_t piece_len);

/*
 * The same of a piece that may stop inside a byte, as luffa_feed_bits takes it.
 *   3 LUFFA_RECORD  the struct isn't well formed
 *  17 LUFFA_ODD     the struct has odd bits; or odd is over 7, or it isn't 0 and piece_len is
 *   4 LUFFA_LONG    the message would have too many bits for the struct's code
 */
uint32_t luffa_hash_feed_bits(struct luffa_hash *hash, const uint8_t *piece, size_t piece_len, size_t odd);

/*
 * The digest of what was fed so far, in the first bytes of out. The bytes after it stay as they
 * were, and so does the struct: it can be finished again or, without odd bits, fed on.
 *   3 LUFFA_RECORD  the struct isn't well formed; its code is judged here, never as 1
 *   2 LUFFA_OUT     out_len is less than the digest's bytes at the struct's code
 */
uint32_t luffa_hash_finish(const struct luffa_hash *hash, uint8_t *out, size_t out_len);

/*
 * Longer output of what was fed so far, as luffa_finish_output gives it.
 *  12 LUFFA_WORDS   words is 0 or over LUFFA_WORDS_MOST, whatever the struct
 *   3 LUFFA_RECORD  the struct isn't well formed; its code is judged here, never as 1
 *   2 LUFFA_OUT     out_len is less than 4 * words
 */
struct luffa_output_answer luffa_hash_finish_output(const struct luffa_hash *hash, size_t words, uint8_t *out,
                                                    size_t out_len);

/*
 * A state by columns, as a controller dumps it. A state is w blocks of eight words of 32 bits, w being 3, 3,
 * 4 and 5 at codes 1 to 4: word 8j + k of the 8w is word k of block j. They are the first 8w words of a
 * luffa_hash's state, or of a mark, and those that a record has from byte 8 on, high byte first. All 40 of these
 * are refused where w isn't 5.
 *
 * Its dump is 32w bytes: for each position l from 0 to 31, which counts the bits of a word from the lowest, one
 * byte for each block. Byte w * l + j is for block j, and its bit k, counted from the lowest too, is bit l of
 * word k. So where byte b of two dumps differs in bit k, it is in word k of block b % w, at position b / w.
 *
 *   code           1     2     3     4
 *   w, blocks      3     3     4     5
 *   8w, words     24    24    32    40
 *   32w, bytes    96    96   128   160
 *
 * A message block of 32 bytes is dumped in the same way, as one block of eight words, each high byte first: bit k
 * of byte l of the 32 is bit l of the word that bytes 4k to 4k + 3 of the message make.
 *
 * Any 32w bytes are the dump of one state, and any 32 that of one message block: there and back nothing is lost.
 * Dumps, words and message block have just these lengths; a longer buffer is refused like a shorter one.
 */

/*
 * The dump of a state. words_len counts words; the words stay as they were.
 *   1 LUFFA_WIDTH    code isn't 1 to 4
 *  24 LUFFA_COLUMNS  words_len isn't 8w, or dump_len isn't 32w
 */
uint32_t luffa_columns_from_words(size_t code, const uint32_t *words, size_t words_len, uint8_t *dump,
                                  size_t dump_len);

/*
 * The state of a dump, the other way round: words_len counts words, and the dump stays as it was.
 *   1 LUFFA_WIDTH    code isn't 1 to 4
 *  24 LUFFA_COLUMNS  dump_len isn't 32w, or words_len isn't 8w
 */
uint32_t luffa_words_from_columns(size_t code, const uint8_t *dump, size_t dump_len, uint32_t *words,
                                  size_t words_len);

/*
 * The dump of a message block, the same at every code. The block stays as it was.
 *  24 LUFFA_COLUMNS  block_len or dump_len isn't LUFFA_BLOCK_BYTES
 */
uint32_t luffa_columns_from_message(const uint8_t *block, size_t block_len, uint8_t *dump, size_t dump_len);

/*
 * Injects a message block into a state (section 3.2 of the specification), as a round does before it permutes the
 * blocks, and all by columns: the state's dump becomes, where it stands, that of the state with the block injected.
 * message is a dump too, the one that luffa_columns_from_message gives, and stays as it was. The block itself is
 * as long and isn't refused: it would be taken for a dump.
 *   1 LUFFA_WIDTH    code isn't 1 to 4
 *  24 LUFFA_COLUMNS  dump_len isn't 32w, or message_len isn't LUFFA_BLOCK_BYTES
 */
uint32_t luffa_columns_inject(size_t code, uint8_t *dump, size_t dump_len, const uint8_t *message, size_t message_len);

/*
 * A sheet is n records of 40 bytes, one after the other, n from 0 to LUFFA_SHEET_MOST. Its digest is
 * luffa_digest's of these 40n bytes.
 *
 * Marks spare a save the hashing of the whole sheet. Four records are five blocks of the message;
 * mark m is the state after the first 4m records, 40 words from marks[40 * m] on. A sheet of n
 * records has marks 0 to n / 4. Codes 1 and 2 use the first 24 words of a mark and code 3 the first
 * 32; the others are written as zero, and no call but luffa_sheet_mend reads them. Words are the
 * machine's own: to carry marks to another machine, build them there.
 *
 * The caller keeps the code, the records, their number n and the marks, and lends them to each call.
 * The buffers may be larger than n needs: what lies behind is neither read nor written, but for the
 * room that an append takes.
 *
 * A save goes like this:
 *   - Open: build, unless marks and digest were kept with the sheet, and hold the digest beside what
 *     the planner sees. Marks that were kept where they may have been spoiled are mended first.
 *   - Save: change, append, drop, a batch of changes or a close up with that digest as the claim. Where
 *     done, sheet and marks are the new ones, the answer has the new n, and the digest in out is the
 *     claim of the next save.
 *   - 11 LUFFA_STALE: somebody else has saved since. Nothing was written: open again and look.
 *   - Where to look: a planner who keeps a copy of the count and marks that he opened with, his own, saves
 *     by the calls with `_own` in their names. Then 11 names a group of four records to look at. And
 *     16 LUFFA_STALE_TAIL says that the difference lies after the last mark that both sheets have: in the
 *     last records, or in how many there are.
 * Two saves that change different records, each with the claim right at its time, leave the same sheet,
 * marks and digest in either order, and take as many rounds.
 * A claim speaks of content: a sheet that was changed and changed back has its old digest again.
 *
 * The duty that no save can judge: marks are those that build or mend left for this sheet at this
 * code, or that the saves since have left. A save takes the words as it finds them, and answers what
 * follows from them; only from true marks is that the digest of the sheet. In doubt, build; or mend,
 * which says what was wrong.
 */
#define LUFFA_SHEET_MOST 1024
#define LUFFA_SHEET_RECORD_BYTES 40
#define LUFFA_MARK_WORDS 40

/* The words that the marks of n records need; LUFFA_MARKS_FOR(LUFFA_SHEET_MOST) suit every sheet. */
#define LUFFA_MARKS_FOR(n) (LUFFA_MARK_WORDS * ((n) / 4 + 1))

/* number is the answer. Where done, count is the number of records now and rounds are the rounds of
   Luffa that were run. Where refused, count is the n given, and rounds are 0, except those in which
   a stale claim was found out. */
struct luffa_sheet_answer {
    uint64_t number, count, rounds;
};

/*
 * Writes every mark of the sheet, and its digest in the first bytes of out. In all sheet calls the
 * bytes of out after the digest stay as they were.
 *   1 LUFFA_WIDTH   code isn't 1 to 4
 *   2 LUFFA_OUT     out_len is less than the digest's bytes at this code
 *   5 LUFFA_SHEET   n is over LUFFA_SHEET_MOST, or sheet_len is less than 40n
 *   6 LUFFA_MARKS   marks_len is less than LUFFA_MARKS_FOR(n)
 */
struct luffa_sheet_answer luffa_sheet_build(size_t code, const uint8_t *sheet, size_t sheet_len, size_t n,
                                            uint32_t *marks, size_t marks_len, uint8_t *out, size_t out_len);

/* number is the answer, and where refused the rest is 0. Where done, wrong is the number of marks that
   weren't true and were written, first the lowest of them, and rounds are the rounds of Luffa that were
   run, five for each four records. Where wrong is 0, first is 0; mark 0 can be the first too. */
struct luffa_mend_answer {
    uint64_t number, wrong, first, rounds;
};

/*
 * Mends the marks of a sheet that a disk gave back: works through the sheet from its beginning, writes
 * each mark of it that isn't true, and says which was the first and how many there were. All 40 words
 * are compared, so a word set in an unused block makes a mark wrong. Afterwards the marks are those that
 * luffa_sheet_build would leave, and a save may follow. Nothing else is written, and where none was wrong
 * nothing at all. The records are taken as they are: whether they are those that were saved, the digest
 * tells.
 *   1 LUFFA_WIDTH   code isn't 1 to 4
 *   5 LUFFA_SHEET   n is over LUFFA_SHEET_MOST, or sheet_len is less than 40n
 *   6 LUFFA_MARKS   marks_len is less than LUFFA_MARKS_FOR(n)
 */
struct luffa_mend_answer luffa_sheet_mend(size_t code, const uint8_t *sheet, size_t sheet_len, size_t n,
                                          uint32_t *marks, size_t marks_len);

/*
 * Puts a record in the place of the one at `place`, counted from 0, rewrites the marks after it, and
 * gives the new digest. A record equal to the old one is taken too.
 *   1 LUFFA_WIDTH   code isn't 1 to 4
 *   2 LUFFA_OUT     out_len is less than the digest's bytes at this code
 *   5 LUFFA_SHEET   n is over LUFFA_SHEET_MOST, or sheet_len is less than 40n
 *   6 LUFFA_MARKS   marks_len is less than LUFFA_MARKS_FOR(n)
 *   7 LUFFA_PLACE   place is n or more
 *   9 LUFFA_SIZE    record_len isn't LUFFA_SHEET_RECORD_BYTES
 *  10 LUFFA_CLAIM   claim_len isn't the digest's bytes at this code
 *  11 LUFFA_STALE   the claim isn't the digest of the sheet held
 */
struct luffa_sheet_answer luffa_sheet_change(size_t code, uint8_t *sheet, size_t sheet_len, size_t n, uint32_t *marks,
                                             size_t marks_len, size_t place, const uint8_t *record, size_t record_len,
                                             const uint8_t *claim, size_t claim_len, uint8_t *out, size_t out_len);

/*
 * Many changes in one save, all of them or none: puts a record in the place of each of those at `places`,
 * with one check of the claim and one working on from the lowest changed group, and gives the new digest.
 * places_len is the number of changes; each place is above the one before it, and the new records stand one
 * after the other in `records`. It leaves what the changes would one by one, in no more rounds. Where there
 * is no change the claim is checked, the digest given, and sheet and marks are left as they are.
 *   1 LUFFA_WIDTH   code isn't 1 to 4
 *   2 LUFFA_OUT     out_len is less than the digest's bytes at this code
 *   5 LUFFA_SHEET   n is over LUFFA_SHEET_MOST, or sheet_len is less than 40n
 *   6 LUFFA_MARKS   marks_len is less than LUFFA_MARKS_FOR(n)
 *  14 LUFFA_SET     places_len is over LUFFA_CHANGES_MOST, or a place isn't above the one before it
 *   7 LUFFA_PLACE   a place is n or more
 *   9 LUFFA_SIZE    records_len isn't LUFFA_SHEET_RECORD_BYTES for each place
 *  10 LUFFA_CLAIM   claim_len isn't the digest's bytes at this code
 *  11 LUFFA_STALE   the claim isn't the digest of the sheet held
 */
#define LUFFA_CHANGES_MOST 64
struct luffa_sheet_answer luffa_sheet_batch(size_t code, uint8_t *sheet, size_t sheet_len, size_t n, uint32_t *marks,
                                            size_t marks_len, const size_t *places, size_t places_len,
                                            const uint8_t *records, size_t records_len, const uint8_t *claim,
                                            size_t claim_len, uint8_t *out, size_t out_len);

/*
 * Writes a record after the last, and a mark when it fills a group of four, and gives the new digest.
 *   1 LUFFA_WIDTH   code isn't 1 to 4
 *   2 LUFFA_OUT     out_len is less than the digest's bytes at this code
 *   5 LUFFA_SHEET   n is over LUFFA_SHEET_MOST, or sheet_len is less than 40n
 *   6 LUFFA_MARKS   marks_len is less than LUFFA_MARKS_FOR(n)
 *   8 LUFFA_FULL    n is LUFFA_SHEET_MOST, or sheet_len or marks_len is too small for n + 1 records
 *   9 LUFFA_SIZE    record_len isn't LUFFA_SHEET_RECORD_BYTES
 *  10 LUFFA_CLAIM   claim_len isn't the digest's bytes at this code
 *  11 LUFFA_STALE   the claim isn't the digest of the sheet held
 */
struct luffa_sheet_answer luffa_sheet_append(size_t code, uint8_t *sheet, size_t sheet_len, size_t n, uint32_t *marks,
                                             size_t marks_len, const uint8_t *record, size_t record_len,
                                             const uint8_t *claim, size_t claim_len, uint8_t *out, size_t out_len);

/*
 * Writes zeros over the last record, and over the last mark when n is a multiple of four, and gives
 * the new digest. A later append uses the room again.
 *   1 LUFFA_WIDTH   code isn't 1 to 4
 *   2 LUFFA_OUT     out_len is less than the digest's bytes at this code
 *   5 LUFFA_SHEET   n is over LUFFA_SHEET_MOST, or sheet_len is less than 40n
 *   6 LUFFA_MARKS   marks_len is less than LUFFA_MARKS_FOR(n)
 *   7 LUFFA_PLACE   n is 0
 *  10 LUFFA_CLAIM   claim_len isn't the digest's bytes at this code
 *  11 LUFFA_STALE   the claim isn't the digest of the sheet held
 */
struct luffa_sheet_answer luffa_sheet_drop(size_t code, uint8_t *sheet, size_t sheet_len, size_t n, uint32_t *marks,
                                           size_t marks_len, const uint8_t *claim, size_t claim_len, uint8_t *out,
                                           size_t out_len);

/*
 * Closes up the struck records, which are those whose 40 bytes are all 0: takes them away, leaves the others
 * in their order, writes zeros over the room that is freed, and gives the new digest. For each place k of the
 * new sheet places[k] is the one that its record had; they rise, and entries from the new count on stay as
 * they were. A later append uses the room again, and a second close up finds nothing to do.
 *
 * The work goes on from the mark of the first struck place's group, as it is found, or from the last mark
 * where no record is struck: the marks of the new sheet after that one are rewritten, and those that the
 * sheet had past the new last one become zeros. Where no record is struck, sheet and marks are left as they are,
 * and the digest is the claim. What a record means isn't asked: one of which any byte isn't 0 stays, if only
 * in its note.
 *   1 LUFFA_WIDTH   code isn't 1 to 4
 *   2 LUFFA_OUT     out_len is less than the digest's bytes at this code
 *   5 LUFFA_SHEET   n is over LUFFA_SHEET_MOST, or sheet_len is less than 40n
 *   6 LUFFA_MARKS   marks_len is less than LUFFA_MARKS_FOR(n)
 *  23 LUFFA_PLACES  places_len is less than n, however many records are struck
 *  10 LUFFA_CLAIM   claim_len isn't the digest's bytes at this code
 *  11 LUFFA_STALE   the claim isn't the digest of the sheet held
 */
struct luffa_sheet_answer luffa_sheet_close_up(size_t code, uint8_t *sheet, size_t sheet_len, size_t n, uint32_t *marks,
                                               size_t marks_len, const uint8_t *claim, size_t claim_len,
                                               uint16_t *places, size_t places_len, uint8_t *out, size_t out_len);

/*
 * Saves that say where they are stale: luffa_sheet_change, luffa_sheet_append and luffa_sheet_drop with the
 * planner's own count and marks besides, own_n and own. They are those of the sheet that he opened, at the
 * same code; as the marks held are lent for writing, his are a copy. Where done, such a save leaves and
 * answers what the plain one does. Where the claim is stale, it compares the marks of both sheets from mark 1
 * on, as far as both have them, up to the first pair that differs. If that is mark g + 1, group g is named,
 * which is the records from 4g to 4g + 3. If both sets of marks are true, the records of this group differ.
 *
 * own is never written, and what lies behind its marks isn't read. 15 is judged whether the claim is stale
 * or not: mark 0 of own must be the starting variables, as luffa_sheet_build writes them. Mark 0 of the sheet
 * held isn't judged.
 */
#define LUFFA_WHERE_SAME 0
#define LUFFA_WHERE_GROUP 1

/* number, count and rounds are as in luffa_sheet_answer, those of 16 as those of 11. At 11 kind is
   LUFFA_WHERE_GROUP, group is the one named, and pairs is how many were compared, group + 1. Else kind is
   LUFFA_WHERE_SAME and group 0; pairs is 0 too, but at 16, where it is how many marks after mark 0 both
   sheets have. */
struct luffa_sheet_where {
    uint64_t number, count, rounds, kind, group, pairs;
};

/*
 * luffa_sheet_change with own marks.
 *   1 LUFFA_WIDTH   code isn't 1 to 4
 *   2 LUFFA_OUT     out_len is less than the digest's bytes at this code
 *   5 LUFFA_SHEET   n is over LUFFA_SHEET_MOST, or sheet_len is less than 40n
 *   6 LUFFA_MARKS   marks_len is less than LUFFA_MARKS_FOR(n)
 *   7 LUFFA_PLACE   place is n or more
 *   9 LUFFA_SIZE    record_len isn't LUFFA_SHEET_RECORD_BYTES
 *  10 LUFFA_CLAIM   claim_len isn't the digest's bytes at this code
 *  15 LUFFA_OWN     own_n is over LUFFA_SHEET_MOST, own_len is less than LUFFA_MARKS_FOR(own_n), or mark 0
 *                   of own isn't the starting variables at this code
 *  11 LUFFA_STALE   the claim isn't the digest of the sheet held, and a group is named
 *  16 LUFFA_STALE_TAIL  the claim isn't, and all marks that both sheets have agree
 */
struct luffa_sheet_where luffa_sheet_change_own(size_t code, uint8_t *sheet, size_t sheet_len, size_t n,
                                                uint32_t *marks, size_t marks_len, size_t place, const uint8_t *record,
                                                size_t record_len, const uint8_t *claim, size_t claim_len, size_t own_n,
                                                const uint32_t *own, size_t own_len, uint8_t *out, size_t out_len);

/*
 * luffa_sheet_append with own marks.
 *   1 LUFFA_WIDTH   code isn't 1 to 4
 *   2 LUFFA_OUT     out_len is less than the digest's bytes at this code
 *   5 LUFFA_SHEET   n is over LUFFA_SHEET_MOST, or sheet_len is less than 40n
 *   6 LUFFA_MARKS   marks_len is less than LUFFA_MARKS_FOR(n)
 *   8 LUFFA_FULL    n is LUFFA_SHEET_MOST, or sheet_len or marks_len is too small for n + 1 records
 *   9 LUFFA_SIZE    record_len isn't LUFFA_SHEET_RECORD_BYTES
 *  10 LUFFA_CLAIM   claim_len isn't the digest's bytes at this code
 *  15 LUFFA_OWN     own_n is over LUFFA_SHEET_MOST, own_len is less than LUFFA_MARKS_FOR(own_n), or mark 0
 *                   of own isn't the starting variables at this code
 *  11 LUFFA_STALE   the claim isn't the digest of the sheet held, and a group is named
 *  16 LUFFA_STALE_TAIL  the claim isn't, and all marks that both sheets have agree
 */
struct luffa_sheet_where luffa_sheet_append_own(size_t code, uint8_t *sheet, size_t sheet_len, size_t n,
                                                uint32_t *marks, size_t marks_len, const uint8_t *record,
                                                size_t record_len, const uint8_t *claim, size_t claim_len, size_t own_n,
                                                const uint32_t *own, size_t own_len, uint8_t *out, size_t out_len);

/*
 * luffa_sheet_drop with own marks.
 *   1 LUFFA_WIDTH   code isn't 1 to 4
 *   2 LUFFA_OUT     out_len is less than the digest's bytes at this code
 *   5 LUFFA_SHEET   n is over LUFFA_SHEET_MOST, or sheet_len is less than 40n
 *   6 LUFFA_MARKS   marks_len is less than LUFFA_MARKS_FOR(n)
 *   7 LUFFA_PLACE   n is 0
 *  10 LUFFA_CLAIM   claim_len isn't the digest's bytes at this code
 *  15 LUFFA_OWN     own_n is over LUFFA_SHEET_MOST, own_len is less than LUFFA_MARKS_FOR(own_n), or mark 0
 *                   of own isn't the starting variables at this code
 *  11 LUFFA_STALE   the claim isn't the digest of the sheet held, and a group is named
 *  16 LUFFA_STALE_TAIL  the claim isn't, and all marks that both sheets have agree
 */
struct luffa_sheet_where luffa_sheet_drop_own(size_t code, uint8_t *sheet, size_t sheet_len, size_t n, uint32_t *marks,
                                              size_t marks_len, const uint8_t *claim, size_t claim_len, size_t own_n,
                                              const uint32_t *own, size_t own_len, uint8_t *out, size_t out_len);

/*
 * What the records of a sheet mean to the balancer. The sheet calls above never ask: they save any 40
 * bytes. A record whose 40 bytes are all 0 is struck: it stands for a well that was given up, until
 * luffa_sheet_close_up takes it away, and is no well. Each other record is one, its numbers high byte first:
 *   bytes 0 and 1      the well's number, not 0 and unlike every other of the sheet
 *   byte 2             its kind, LUFFA_PRODUCER or LUFFA_INJECTOR
 *   byte 3             its link count: the links that it uses
 *   bytes 4 to 7       its rate in tonnes a day, at most LUFFA_RATE_MOST
 *   bytes 8 to 23      four links of four bytes: the number of an injector, then a share in thousandths
 *   bytes 24 to 39     a note, free
 */
#define LUFFA_WELL_NUMBER 0
#define LUFFA_WELL_KIND 2
#define LUFFA_WELL_LINK_COUNT 3
#define LUFFA_WELL_RATE 4
#define LUFFA_WELL_LINKS 8
#define LUFFA_WELL_NOTE 24

/* Link k of a record, k from 0 to LUFFA_LINKS_MOST - 1: its injector's number and its share. */
#define LUFFA_LINK_INJECTOR(k) (LUFFA_WELL_LINKS + 4 * (k))
#define LUFFA_LINK_SHARE(k) (LUFFA_WELL_LINKS + 4 * (k) + 2)

#define LUFFA_PRODUCER 1
#define LUFFA_INJECTOR 2
#define LUFFA_LINKS_MOST 4
#define LUFFA_RATE_MOST 100000
#define LUFFA_SHARES_TOTAL 1000

/*
 * The rules, in the order in which each record is held to them, and what breaks each. A record uses the
 * first (link count) of its four links. A struck record is held to none of them, and no other repeats it.
 */
#define LUFFA_SOUND 0
#define LUFFA_RULE_NUMBER 1       /* the number is 0, and another byte isn't, be it in the note */
#define LUFFA_RULE_KIND 2         /* the kind is neither 1 nor 2 */
#define LUFFA_RULE_LINK_COUNT 3   /* a producer has more than 4 links, or none at a rate that isn't 0, or
                                     some at rate 0; an injector has any */
#define LUFFA_RULE_RATE 4         /* the rate is over LUFFA_RATE_MOST */
#define LUFFA_RULE_LINKS 5        /* a used link has a number that no record of the sheet has with kind 2,
                                     at any place, sound or not; or two used links have the same */
#define LUFFA_RULE_SHARES 6       /* a used link's share isn't 1 to LUFFA_SHARES_TOTAL, or there are used
                                     links and their shares don't add up to it */
#define LUFFA_RULE_UNUSED_LINKS 7 /* a byte of a link that isn't used isn't 0; an injector uses none */
#define LUFFA_RULE_REPEAT 8       /* a record at an earlier place has the same number */

/* Look at number first: where it isn't LUFFA_DONE, rule and place are 0 and say nothing. Where it is,
   rule is LUFFA_SOUND and place 0, or rule is the first that the record at this place breaks, counted
   from 0, and no record at a lower place breaks any. */
struct luffa_content_answer {
    uint64_t number, rule, place;
};

/*
 * Whether the n records of a sheet are sound, or else the lowest faulty place and the first rule that
 * is broken there. A sheet of no records is sound, and so is one of struck records. Nothing is written.
 * What lies behind the n-th record doesn't matter, nor does a note, but where all other bytes of its record
 * are 0. The time is a fixed part and so much a record, however many there are. The call takes up to 17 KiB
 * of stack, luffa_plan_reach up to 25 KiB, luffa_plan_brine up to 160 KiB, every other one up to 4 KiB.
 *   5 LUFFA_SHEET   n is over LUFFA_SHEET_MOST, or sheet_len is less than 40n
 */
struct luffa_content_answer luffa_plan_check(const uint8_t *sheet, size_t sheet_len, size_t n);

/*
 * The brine statement: one page over a batch of sheets, which lie one after another in one buffer,
 * counts[k] records each. An injector's intake is what it is sent, in kilograms a day: over all producers
 * of the same sheet and their links that name it, rate times share. Its spare capacity is 1000 times its
 * rate less the intake, below zero where it is overloaded.
 *
 * Both lists have a place for each record of the batch, in order: in intake[p] and spare[p] stand the
 * figures of the record at 40p of the buffer, if it is an injector's of a sound sheet, else 0 in both; so a
 * struck record has 0. Places beyond stay as they were. A sheet that luffa_plan_check faults keeps its room
 * in the buffer and its places in the lists, and counts in faulted alone.
 */
#define LUFFA_BATCH_MOST 64

/* Look at number first: where it isn't LUFFA_DONE, the other four are 0 and say nothing. sound and faulted
   are sheets, together those of the batch; intake is the total of the list, which for every sound sheet is
   1000 times its producers' rates; overloaded is how many injectors have less than 0 to spare. */
struct luffa_brine_answer {
    uint64_t number, sound, faulted, intake, overloaded;
};

/*
 * A batch of no sheets has an empty page, and a sheet of no records is sound. The time is a fixed part, so
 * much a sheet and so much a record. The call takes up to 160 KiB of stack.
 *   13 LUFFA_BATCH   counts_len is over LUFFA_BATCH_MOST
 *   5  LUFFA_SHEET   a count is over LUFFA_SHEET_MOST, or sheets_len is less than 40 for each record
 *   25 LUFFA_LIST    intake_len or spare_len is less than the records of the batch
 */
struct luffa_brine_answer luffa_plan_brine(const uint8_t *sheets, size_t sheets_len,
                                           const size_t *counts, size_t counts_len,
                                           uint64_t *intake, size_t intake_len,
                                           int64_t *spare, size_t spare_len);

/*
 * Who depends on a well. A link joins its producer and the injector that it names: the producer reaches the
 * injectors that it links, an injector the producers that link it. From the record whose number is `well`,
 * reached[p] is 1 where a chain of at most `hops` links joins the record at place p, else 0, for each of the
 * n records; the bytes after stay as they were. A chain of no link joins the well to itself, so at 0 hops it
 * alone is reached. What is reached at some hops is reached at more, and reaches the well at as many. A struck
 * record is never reached.
 */
#define LUFFA_HOPS_MOST 3

/*
 * The time is a fixed part and so much a record, however many there are. The call takes up to 25 KiB of stack.
 *   5 LUFFA_SHEET    n is over LUFFA_SHEET_MOST, or sheet_len is less than 40n
 *  19 LUFFA_HOPS     hops is over LUFFA_HOPS_MOST
 *  20 LUFFA_UNSOUND  luffa_plan_check faults the sheet of n records
 *  21 LUFFA_WELL     no record of the sheet has the number `well`, which is judged whole: 65,539 isn't 3, and
 *                    none has 0, as a struck record has no number
 *  22 LUFFA_REACH    reached_len is less than n
 */
uint32_t luffa_plan_reach(const uint8_t *sheet, size_t sheet_len, size_t n, size_t well, size_t hops,
                          uint8_t *reached, size_t reached_len);

#ifdef __cplusplus
}
#endif

#endif
