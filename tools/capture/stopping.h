/* The end of a run by SIGTERM or SIGINT. */
#ifndef STOPPING_H
#define STOPPING_H

#include <signal.h>
#include <time.h>

/* Has both signals noted. The second one ends the program at once. */
void note_signals(void);

/* The signal that came, or 0, and when it came, of the real clock. */
extern volatile sig_atomic_t stopped_by;
struct timespec stopped_at(void);

/* How long a wait may last before the signal is looked for, in milliseconds. A signal that comes just before a wait doesn't end it. */
enum { LOOK_EVERY = 200 };

#endif
