/* How many words are done, told about every second while that goes on. */
#ifndef PROGRESS_H
#define PROGRESS_H

/* Begins to count. Nothing is told but on a terminal that shows neither input nor answers. */
void progress_begin(const char *noun);

void progress_step(void);

/* Wipes the line, where there is one. */
void progress_wipe(void);

#endif
