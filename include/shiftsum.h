/*
 * shiftsum: a proved coder for cyclic codes, with an iterated shift-sum decoder.
 *
 *     shiftsum_check        whether a codebook is accepted
 *     shiftsum_code         a message becomes a code word
 *     shiftsum_read         a code word becomes its message
 *     shiftsum_decode       a received word becomes an answer word, of one of four kinds
 *     shiftsum_remainder    what division by the generator leaves of a word
 *     shiftsum_burst        decode of up to 16 words that were sent mixed
 *     shiftsum_game         the messages of all words of a burst, or of none
 *     shiftsum_version      the version of the archive
 *
 * and in this header alone: shiftsum_n, shiftsum_k, shiftsum_q, shiftsum_reached,
 * shiftsum_refusal_text.
 *
 * A symbol is a byte below q = 2^p. A word is n = 2^s - 1 symbols, place j the
 * coefficient of x^j. A message is k = n - degree(g) symbols, or fewer where the high
 * ones are zero and left out. s, p, the generator g, the limits I and D and the dual
 * words come from a codebook.
 *
 * The lines under 'Example' are one program, in their order, which the gate runs. In it
 * book is book A (examples/books/a.book): 134 bytes, n 7, k 4, q 2.
 *
 * Example:
 *     const uint8_t frame[4] = {1, 0, 1, 1};
 *     uint8_t word[7], answer[7], message[4];
 *     uint32_t r = shiftsum_code(book, book_len, frame, 4, word, 7);
 *     word[2] ^= 1;                            // a symbol goes wrong on the way
 *     r = shiftsum_decode(book, book_len, word, 7, answer, 7);
 *     if (SHIFTSUM_REFUSAL(r) != 0)            // by number; nothing was written
 *         puts(shiftsum_refusal_text(SHIFTSUM_REFUSAL(r)));
 *     else if (SHIFTSUM_REACHED(r))            // the answer is a code word
 *         r = shiftsum_read(book, book_len, answer, 7, message, 4);
 *     else                                     // Stalled or Spent: none was reached
 *         hold(word);
 *     assert(r == 0 && memcmp(message, frame, 4) == 0);
 *
 * What every call does:
 *   - It is a pure function of its arguments: no state, no allocation, no input or
 *     output, no errno. Any number of threads may call at once.
 *   - It ends for every input.
 *   - It writes its outputs whole, or, where it is refused, not at all; nor does a game
 *     that is Held. Every other buffer is only read. All but shiftsum_burst have one
 *     output or none.
 *   - It takes less than SHIFTSUM_STACK bytes of stack with a codebook of the short form,
 *     less than SHIFTSUM_STACK_LONG with any, also with one that is refused. This is
 *     measured, not proved.
 *
 * What the caller sees to, since no call can:
 *   - No pointer is null, also where its length is 0. Memory needs no alignment.
 *   - A length is the count of bytes, or of records, that may be read, or written, behind
 *     its pointer.
 *   - An output overlaps neither the codebook nor the input nor another output. The
 *     codebook and the input may overlap each other.
 *   - No other thread writes to these buffers, or reads an output, during the call.
 *
 * Why calls keep no state: a codebook is plain bytes, and every call opens it anew. So
 * there is no handle to make, free or lock, none is stale or half made, and a book is
 * looked at each time that it is used. What that costs is the opening, and a burst is
 * the way to share it: shiftsum_burst and shiftsum_game open the codebook once for up
 * to 16 words. Words that were not sent mixed may be laid out as a burst for that alone.
 */
#ifndef SHIFTSUM_H
#define SHIFTSUM_H

#include <stddef.h>
#include <stdint.h>

#ifdef __cplusplus
extern "C" {
#endif

/* The version of this header: as a number, a byte each for major, minor and patch. */
#define SHIFTSUM_VERSION 0x000800
#define SHIFTSUM_VERSION_TEXT "0.8.0"

/*
 * The version of the archive, as a number like SHIFTSUM_VERSION. Where they differ,
 * header and archive are not of one delivery.
 *
 * Example:
 *     assert(shiftsum_version() == SHIFTSUM_VERSION);
 */
uint32_t shiftsum_version(void);

/* ---- sizes ---- */

/* Bytes of an accepted codebook: short form 70 + 64 L, to 2118; long form 262 + 256 L. */
#define SHIFTSUM_BOOK_MIN 134
#define SHIFTSUM_BOOK_MAX 8454

/* Symbols of a word: n, to 63 in the short form. k is 1 to n - 1, and so is n - k. */
#define SHIFTSUM_WORD_MIN 3
#define SHIFTSUM_WORD_MAX 255

/* Words of a burst: 1 to 16. */
#define SHIFTSUM_BURST_MAX 16

/* Bytes of stack that are enough with a codebook of the short form, and with any. */
#define SHIFTSUM_STACK 65536
#define SHIFTSUM_STACK_LONG 81920

/* ---- codebooks ---- */

/*
 * A codebook has one of two forms, the short one for words of 3 to 63 symbols and the
 * long one for words of 127 and 255. Byte 3 chooses, 2 for the short form and 5 for the
 * long one, and never the length, since there are lengths of both:
 *
 *     short form   bytes   long form    bytes    content
 *     0            1, 2    0            1, 2     1; s and p
 *     3            1, 63   3            1, 255   2 or, long, 5; g, from x^0
 *     67           1, 2    259          1, 2     3; I and D
 *     70 + 64 l    1, 63   262 + 256 l  1, 255   4 or, long, 6; dual word l, l below L
 *
 *   s, p       short: s is 2 to 6, and p divides s. Long: s is 7, and p 1, or s is 8, and
 *              p 1, 2 or 4
 *   g          the generator: leading coefficient 1, degree 1 or more; divides x^n - 1
 *   I          the most rounds, 1 to 63
 *   D          the most places of a count in the update rule, 1 to n
 *   dual words L of them, 1 to 32: 1 at place 0, product with g zero, all of one weight,
 *              no two alike (one a nonzero symbol times a turn of the other)
 *
 * Places from n to the end of a body are zero. A codebook that breaks a rule is refused
 * by number. shiftsum-codebook(5) tells more, and docs/CODEBOOKS.md which book to take.
 *
 * n, k and q of a codebook that shiftsum_check accepts. Of another they must not be
 * asked: they tell nothing, and may read beyond it.
 *
 * Example:
 *     assert(shiftsum_n(book) == 7 && shiftsum_k(book) == 4 && shiftsum_q(book) == 2);
 */
static inline size_t shiftsum_n(const uint8_t *book)
{
    return ((size_t)1 << book[1]) - 1;
}

static inline size_t shiftsum_k(const uint8_t *book)
{
    size_t n = shiftsum_n(book), degree = n - 1;
    while (degree > 0 && book[4 + degree] == 0)
        degree--;
    return n - degree;
}

static inline unsigned shiftsum_q(const uint8_t *book)
{
    return 1u << book[2];
}

/* ---- results ---- */

/*
 * A result is four bytes in a number. The lowest is 0, or the number of the refusal, and
 * then the other three are 0.
 */
#define SHIFTSUM_REFUSAL(result) ((unsigned)((result) & 0xffu))

/*
 * The refusals. The first that applies, in the order of this list, is the one returned.
 * Any call that is given a codebook may return 1 to 8, which are of the codebook.
 *    1  its length is none of the form that byte 3 chooses or, with another byte 3, of
 *       neither form; so also fewer than 4 bytes
 *    2  a record's kind byte
 *    3  s or p, also an s of the other form
 *    4  a symbol of q or more, or a place from n on that is not zero
 *    5  the generator: leading coefficient, degree, or it does not divide x^n - 1
 *    6  I or D
 *    7  a dual word: its place 0, its product with g, or its weight
 *    8  two dual words are alike; so also two equal ones
 *   14  M, the count of words, is 0 or above 16 (burst, game)
 *    9  input: not 1 to k symbols (code), n (read, remainder, decode) or n * M (burst,
 *       game)
 *   10  output: its length is not exactly n (code, decode), k (read), n - k (remainder),
 *       n * M bytes or M records (burst), k * M (game)
 *   11  input: a symbol of q or more (all but check)
 *   12  input: no code word (read)
 * 13, the inverse of zero, is of the field's operations, and no call returns it.
 */
#define SHIFTSUM_REFUSED_LENGTH 1
#define SHIFTSUM_REFUSED_KIND 2
#define SHIFTSUM_REFUSED_SIZE 3
#define SHIFTSUM_REFUSED_SYMBOL 4
#define SHIFTSUM_REFUSED_GENERATOR 5
#define SHIFTSUM_REFUSED_LIMIT 6
#define SHIFTSUM_REFUSED_DUAL_WORD 7
#define SHIFTSUM_REFUSED_ALIKE 8
#define SHIFTSUM_REFUSED_WORDS 14
#define SHIFTSUM_REFUSED_INPUT_LENGTH 9
#define SHIFTSUM_REFUSED_OUTPUT_LENGTH 10
#define SHIFTSUM_REFUSED_INPUT_SYMBOL 11
#define SHIFTSUM_REFUSED_NO_CODE_WORD 12

/*
 * What a number means, as a part of a sentence; for 0 and for numbers that no call
 * returns too.
 *
 * Example:
 *     const uint8_t bad[7] = {0, 0, 2};
 *     r = shiftsum_decode(book, book_len, bad, 7, answer, 7);
 *     assert(SHIFTSUM_REFUSAL(r) == SHIFTSUM_REFUSED_INPUT_SYMBOL);
 *     puts(shiftsum_refusal_text(SHIFTSUM_REFUSAL(r)));
 */
static inline const char *shiftsum_refusal_text(unsigned number)
{
    switch (number) {
    case 0:
        return "not refused";
    case SHIFTSUM_REFUSED_LENGTH:
        return "the codebook's length is none of its form: 70 + 64 L bytes, or, where "
               "byte 3 is 5, 262 + 256 L; L from 1 to 32";
    case SHIFTSUM_REFUSED_KIND:
        return "the codebook's records are not of the kinds 1, 2, 3, 4, 4, .. or 1, 5, "
               "3, 6, 6, .. in this order";
    case SHIFTSUM_REFUSED_SIZE:
        return "the codebook's s is not 2 to 6, or its p does not divide s; or, in the "
               "long form, they are not 7 and 1, or 8 and 1, 2 or 4";
    case SHIFTSUM_REFUSED_SYMBOL:
        return "the codebook has a symbol of q or more, or a nonzero place from n on";
    case SHIFTSUM_REFUSED_GENERATOR:
        return "the codebook's generator has not leading coefficient 1, has degree 0, or "
               "does not divide x^n - 1";
    case SHIFTSUM_REFUSED_LIMIT:
        return "the codebook's I is not 1 to 63, or its D not 1 to n";
    case SHIFTSUM_REFUSED_DUAL_WORD:
        return "a dual word has not symbol 1 at place 0, its product with the generator "
               "is not zero, or its weight differs from the others'";
    case SHIFTSUM_REFUSED_ALIKE:
        return "two dual words of the codebook are alike: one is a nonzero symbol times "
               "a turn of the other";
    case SHIFTSUM_REFUSED_INPUT_LENGTH:
        return "the input is not 1 to k symbols for coding, n symbols for reading, "
               "dividing and decoding, or n times M for a burst or game of M words";
    case SHIFTSUM_REFUSED_OUTPUT_LENGTH:
        return "the output's size is not exact";
    case SHIFTSUM_REFUSED_INPUT_SYMBOL:
        return "the input has a symbol of q or more";
    case SHIFTSUM_REFUSED_NO_CODE_WORD:
        return "the word to be read is not a code word";
    case 13:
        return "zero has no inverse";
    case SHIFTSUM_REFUSED_WORDS:
        return "a burst is of no word, or of more than 16";
    default:
        return "a number that this version does not know";
    }
}

/* check: the count L of dual words. */
#define SHIFTSUM_DUAL_WORDS(result) ((unsigned)(((result) >> 8) & 0xffu))

/*
 * decode: in how many places answer and received word differ, how many rounds were made,
 * and the kind of answer; all 0 of a refused call.
 */
#define SHIFTSUM_CHANGED(result) ((unsigned)(((result) >> 8) & 0xffu))
#define SHIFTSUM_ROUNDS(result) ((unsigned)(((result) >> 16) & 0xffu))
#define SHIFTSUM_KIND(result) ((char)(((result) >> 24) & 0xffu))

/*
 * The kinds of answer.
 *   Clean    a code word was received, and is the answer; 0 rounds, 0 changed.
 *   Mended   a code word was reached, and is the answer.
 *   Stalled  a round, which is counted, found nothing to change. The answer is the word
 *            as received, 0 changed.
 *   Spent    I rounds reached no code word. The answer is the word as received, 0
 *            changed.
 * A code word, Clean or Mended, need not be the one that was sent: enough errors lead to
 * another, and no decoder can tell. Keep words as received until they no longer matter.
 */
#define SHIFTSUM_CLEAN 'C'
#define SHIFTSUM_MENDED 'M'
#define SHIFTSUM_STALLED 'S'
#define SHIFTSUM_SPENT 'X'

/*
 * Whether a code word was reached, which is then the answer: Clean or Mended. Of a kind,
 * as a burst's records have it, and of a result of decode, which is looked at once. A
 * refused call has reached none.
 *
 * Example:
 *     assert(!SHIFTSUM_REACHED(r));            // refused by 11, above
 *     assert(shiftsum_reached('C') && !shiftsum_reached('S'));
 */
static inline int shiftsum_reached(int kind)
{
    return kind == SHIFTSUM_CLEAN || kind == SHIFTSUM_MENDED;
}

#define SHIFTSUM_REACHED(result) shiftsum_reached(SHIFTSUM_KIND(result))

/*
 * game: how many words are held, Stalled or Spent, and in SHIFTSUM_KIND whether the game
 * is Whole or Held.
 *   Whole    every word is Clean or Mended, none is held, and the messages were written.
 *   Held     one word or more is Stalled or Spent, and nothing was written.
 */
#define SHIFTSUM_HELD_WORDS(result) ((unsigned)(((result) >> 8) & 0xffu))
#define SHIFTSUM_WHOLE 'W'
#define SHIFTSUM_HELD 'H'

/* ---- functions ---- */

/*
 * Whether a codebook is accepted.
 *   book       book_len bytes, any
 * Returns no refusal and L in SHIFTSUM_DUAL_WORDS, or a refusal from 1 to 8. The other
 * functions check the codebook too, each time: it need not be checked first.
 *
 * Example:
 *     r = shiftsum_check(book, book_len);
 *     assert(SHIFTSUM_REFUSAL(r) == 0 && SHIFTSUM_DUAL_WORDS(r) == 1);
 *     assert(shiftsum_check(book, book_len - 1) == SHIFTSUM_REFUSED_LENGTH);
 */
uint32_t shiftsum_check(const uint8_t *book, size_t book_len);

/*
 * Codes a message: writes the product of message and g.
 *   message    1 to k symbols, from x^0; those that a short message lacks, its high ones,
 *              count as zero
 *   word       n bytes, written, however short the message is
 * Returns 0, or a refusal from 1 to 11. shiftsum_read gives the message back from the
 * word, a short one with its zeros: k symbols always.
 *
 * Example:
 *     r = shiftsum_code(book, book_len, frame, 4, word, 7);
 *     assert(r == 0);
 */
uint32_t shiftsum_code(const uint8_t *book, size_t book_len, const uint8_t *message,
                       size_t message_len, uint8_t *word, size_t word_len);

/*
 * Reads a code word: writes its quotient by g.
 *   word       n symbols
 *   message    k bytes, written; nothing in a word tells how short a message was coded
 * Returns 0, or a refusal from 1 to 12. shiftsum_code gives the word back from the
 * message.
 *
 * Example:
 *     r = shiftsum_read(book, book_len, word, 7, message, 4);
 *     assert(r == 0 && memcmp(message, frame, 4) == 0);
 */
uint32_t shiftsum_read(const uint8_t *book, size_t book_len, const uint8_t *word,
                       size_t word_len, uint8_t *message, size_t message_len);

/*
 * Divides a word by g: writes its remainder. It is for sorting received words by error
 * pattern: a damaged word has the remainder of its pattern, whichever code word was sent,
 * since two words have the same remainder exactly if they differ by a code word. A code
 * word has the remainder zero, and no other word has.
 *   word       n symbols, a code word or not
 *   remainder  n - k bytes, written, from x^0
 * Returns 0, or a refusal from 1 to 11.
 *
 * Example:
 *     const uint8_t pattern[7] = {1}, zero[3] = {0};
 *     uint8_t of_word[3], of_pattern[3];
 *     shiftsum_remainder(book, book_len, word, 7, of_word, 3);
 *     assert(memcmp(of_word, zero, 3) == 0);   // a code word
 *     word[0] ^= 1;                            // now damaged by the pattern
 *     shiftsum_remainder(book, book_len, word, 7, of_word, 3);
 *     shiftsum_remainder(book, book_len, pattern, 7, of_pattern, 3);
 *     assert(memcmp(of_word, of_pattern, 3) == 0);
 */
uint32_t shiftsum_remainder(const uint8_t *book, size_t book_len, const uint8_t *word,
                            size_t word_len, uint8_t *remainder, size_t remainder_len);

/*
 * Decodes a received word.
 *   received   n symbols
 *   answer     n bytes, written
 * Returns no refusal and the kind of answer, the rounds and the count of changed places,
 * or a refusal from 1 to 11.
 *
 * Example:
 *     r = shiftsum_decode(book, book_len, word, 7, answer, 7);
 *     assert(SHIFTSUM_KIND(r) == SHIFTSUM_MENDED && SHIFTSUM_CHANGED(r) == 1);
 */
uint32_t shiftsum_decode(const uint8_t *book, size_t book_len, const uint8_t *received,
                         size_t received_len, uint8_t *answer, size_t answer_len);

/*
 * What a burst tells of a word: the kind of answer (its letter), the rounds, and the
 * count of changed places, as decode tells them. Three bytes.
 */
struct shiftsum_record {
    uint8_t kind, rounds, changed;
};

/*
 * Decodes a burst: M words of one codebook, received mixed, so that damage to a dozen
 * symbols in a row is spread over all words. Symbol j of word m is received at place
 * j * M + m. What is written of each word is what shiftsum_decode would say and write of
 * it by itself; the codebook is checked once.
 *   words      M, 1 to 16 (SHIFTSUM_BURST_MAX)
 *   received   n * M symbols, mixed
 *   answers    n * M bytes, written: the answer words one after another, not mixed;
 *              word m from place m * n on
 *   records    M records (records_len counts records, not bytes), written: record m is of
 *              word m
 * Returns 0, or a refusal from 1 to 11 or 14. One symbol of q or more refuses the whole
 * burst.
 *
 * Example:
 *     uint8_t mixed[14], answers[14];
 *     struct shiftsum_record records[2];
 *     for (int j = 0; j < 7; j++) {            // two words: one damaged, one mended
 *         mixed[2 * j] = word[j];
 *         mixed[2 * j + 1] = answer[j];
 *     }
 *     r = shiftsum_burst(book, book_len, 2, mixed, 14, answers, 14, records, 2);
 *     assert(r == 0 && records[0].kind == 'M' && records[1].kind == 'C');
 *     assert(shiftsum_reached(records[0].kind));
 */
uint32_t shiftsum_burst(const uint8_t *book, size_t book_len, uint32_t words,
                        const uint8_t *received, size_t received_len, uint8_t *answers,
                        size_t answers_len, struct shiftsum_record *records,
                        size_t records_len);

/*
 * Takes a game: decodes a burst as shiftsum_burst does, and reads the messages of all its
 * words, or of none. A game of which some frames are the lane's and some another's is one
 * that nobody bowled.
 *   words      M, 1 to 16 (SHIFTSUM_BURST_MAX)
 *   received   n * M symbols, mixed as for shiftsum_burst
 *   messages   k * M bytes: where the game is Whole, written, what shiftsum_read reads of
 *              each answer word, one after another; message m from place m * k on. Where
 *              it is Held, every byte stays as it was
 * Returns no refusal, Whole or Held and the count of words held, or a refusal from 1 to
 * 11 or 14. Whole tells no more than Clean and Mended do: a word may be another than
 * the one that was sent. Which words are held is for shiftsum_burst to tell.
 *
 * Example:
 *     uint8_t messages[8];
 *     r = shiftsum_game(book, book_len, 2, mixed, 14, messages, 8);
 *     assert(SHIFTSUM_KIND(r) == SHIFTSUM_WHOLE && SHIFTSUM_HELD_WORDS(r) == 0);
 *     assert(memcmp(messages, frame, 4) == 0);
 */
uint32_t shiftsum_game(const uint8_t *book, size_t book_len, uint32_t words,
                       const uint8_t *received, size_t received_len, uint8_t *messages,
                       size_t messages_len);

#ifdef __cplusplus
}
#endif

#endif
