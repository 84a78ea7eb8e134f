/* The subcommand check: what a codebook is, or why it is refused. */
#ifndef CHECK_H
#define CHECK_H

int check_run(int count, char **names);

#endif
