/* The subcommand book: codebooks made from text, and shown as text. */
#ifndef BOOK_H
#define BOOK_H

/* TEXT and BOOK. */
int book_make(int count, char **arguments);

/* BOOK. */
int book_show(int count, char **arguments);

#endif
