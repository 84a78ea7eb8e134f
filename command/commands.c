#include "book.h"
#include "check.h"
#include "help.h"

#include <stddef.h>

#define WORDS                                                                                     \
    "\n\nWords are hexadecimal, two digits a symbol. Where no word is named, they come from standard\n" \
    "input, one a line; blank lines and lines that begin with # are passed over. A word that is\n" \
    "refused has 'R NUMBER' in its line, and a sentence on standard error."

#define MIXED "\nA burst is n * M symbols, symbol j of word m at place j * M + m. M is 1 to 16."

const struct command commands[] = {
    {"check", 1, -1, check_run, NULL, "shiftsum check BOOK..",
     "Tells of each codebook its sizes and whether it mends every single wrong symbol or none,\n"
     "or by which number it is refused, and where its fault is."},
    {"code", 1, -1, NULL, &operation_code, "shiftsum code BOOK [MESSAGE..]",
     "Prints the code word of each message of 1 to k symbols." WORDS},
    {"read", 1, -1, NULL, &operation_read, "shiftsum read BOOK [WORD..]",
     "Prints the message of each code word." WORDS},
    {"decode", 1, -1, NULL, &operation_decode, "shiftsum decode BOOK [WORD..]",
     "Prints of each received word the kind of answer, the rounds, how many places were changed,\n"
     "and the answer. C is Clean, M Mended: the answer is a code word, but need not be the one\n"
     "that was sent. S is Stalled, X Spent: the answer is the word as received. Keep words as\n"
     "received until they no longer matter." WORDS},
    {"remainder", 1, -1, NULL, &operation_remainder, "shiftsum remainder BOOK [WORD..]",
     "Prints what division by the generator leaves of each word: all zero for a code word." WORDS},
    {"burst", 2, -1, NULL, &operation_burst, "shiftsum burst BOOK M [BURST..]",
     "Decodes the M words of each burst, and prints a line for each word, as decode does." MIXED WORDS},
    {"game", 2, -1, NULL, &operation_game, "shiftsum game BOOK M [BURST..]",
     "Prints a line for each burst: 'W 0' and its M messages, where every word is Clean or\n"
     "Mended, else 'H' and how many words are Stalled or Spent." MIXED WORDS},
    {NULL, 0, 0, NULL, NULL, NULL, NULL},
};

const struct command book_commands[] = {
    {"make", 2, 2, book_make, NULL, "shiftsum book make TEXT BOOK",
     "Makes a codebook from its description; '-' is standard input. Lines of the description are\n"
     "KEY VALUE: s, p, I and D once each, decimal; g once and dual 1 to 32 times, hexadecimal, two\n"
     "digits a symbol from place 0, high zeros left out or not. # begins a comment line. BOOK is\n"
     "written only where the codebook is accepted."},
    {"show", 1, 1, book_show, NULL, "shiftsum book show BOOK",
     "Prints the description of a codebook. To make it again gives the same bytes."},
    {NULL, 0, 0, NULL, NULL, NULL, NULL},
};
