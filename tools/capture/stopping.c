#include "stopping.h"

#include <stddef.h>

volatile sig_atomic_t stopped_by;
static struct timespec at;

static void note(int number)
{
    clock_gettime(CLOCK_REALTIME, &at);
    stopped_by = number;
}

void note_signals(void)
{
    /* Without SA_RESTART: a write that waits for its reader ends. */
    struct sigaction action = {.sa_handler = note, .sa_flags = (int)SA_RESETHAND};
    sigemptyset(&action.sa_mask);
    sigaction(SIGTERM, &action, NULL);
    sigaction(SIGINT, &action, NULL);
}

struct timespec stopped_at(void)
{
    return at;
}
