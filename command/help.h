/* The subcommands, and what is told about them. */
#ifndef HELP_H
#define HELP_H

#include "operations.h"

struct command {
    const char *name;
    int least, most; /* arguments; most is -1 where there is no end */
    int (*run)(int count, char **arguments);
    const struct operation *operation; /* where run is NULL */
    const char *usage, *about;
};

extern const struct command commands[];
extern const struct command book_commands[];

/* The command of that name in a list; NULL where there is none. */
const struct command *help_find(const struct command *list, const char *name);

/* All subcommands; one of them; those of book. */
void help_all(void);
void help_one(const struct command *command);
void help_book(void);

/* The versions; WRONG where header and archive have different ones. */
int help_version(void);

#endif
