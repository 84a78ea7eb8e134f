/* A file is written whole, or stays as it was. */
#ifndef WRITE_H
#define WRITE_H

#include <stddef.h>

/* DONE, or WRONG and a sentence. */
int write_file(const char *name, const void *bytes, size_t len);

#endif
