/* How far the reading of a capture is, on a terminal. */
#ifndef PROGRESS_H
#define PROGRESS_H

#include <sys/types.h>

/* Shows the progress twice a second if standard error is a terminal, from the second second on. */
void progress_show(const char *name, off_t read, off_t octets);

/* Takes the progress off the terminal. */
void progress_end(void);

#endif
