#include "help.h"

#include "say.h"

#include <stdio.h>
#include <string.h>

const struct command *help_find(const struct command *list, const char *name)
{
    for (; list->name != NULL; list++)
        if (strcmp(list->name, name) == 0)
            return list;
    return NULL;
}

void help_all(void)
{
    puts("shiftsum codes, reads and decodes words of cyclic codes, and checks and makes codebooks.\n"
         "\n"
         "  shiftsum check BOOK..                what a codebook is, or why it is refused\n"
         "  shiftsum code BOOK [MESSAGE..]       messages become code words\n"
         "  shiftsum read BOOK [WORD..]          code words become messages\n"
         "  shiftsum decode BOOK [WORD..]        received words become answer words\n"
         "  shiftsum remainder BOOK [WORD..]     what division by the generator leaves\n"
         "  shiftsum burst BOOK M [BURST..]      decode of M words that were sent mixed\n"
         "  shiftsum game BOOK M [BURST..]       all M messages of a burst, or none\n"
         "  shiftsum book make TEXT BOOK         a codebook from its description\n"
         "  shiftsum book show BOOK              the description of a codebook\n"
         "  shiftsum help [SUBCOMMAND]           this, or more of one\n"
         "  shiftsum --version\n"
         "\n"
         "Words are hexadecimal, two digits a symbol, from place 0. Where none is named, they come\n"
         "from standard input, one a line.\n"
         "\n"
         "  shiftsum decode a.book 01000000000000\n"
         "\n"
         "Exit status: 0 done; 1 something is refused or held; 2 wrong use, or a file that cannot be\n"
         "read or written.");
}

void help_one(const struct command *command)
{
    printf("usage: %s\n\n%s\n", command->usage, command->about);
}

void help_book(void)
{
    help_one(&book_commands[0]);
    putchar('\n');
    help_one(&book_commands[1]);
}

static void print_version(const char *of, uint32_t version)
{
    printf("%s %u.%u.%u\n", of, (unsigned)(version >> 16), (unsigned)(version >> 8 & 255), (unsigned)(version & 255));
}

int help_version(void)
{
    print_version("shiftsum", SHIFTSUM_VERSION);
    print_version("archive", shiftsum_version());
    if (shiftsum_version() == SHIFTSUM_VERSION)
        return DONE;
    say("the command was built by the header of one version and linked with the archive of another");
    return WRONG;
}
