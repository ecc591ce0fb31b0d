#include "progress.h"

#include "say.h"
#include "stamp.h"

#include <stdbool.h>
#include <stdio.h>
#include <time.h>
#include <unistd.h>

static const long long first_after = 1000000000, next_after = 500000000;

static struct {
    bool is_begun, is_terminal, is_shown;
    struct timespec begun, due;
} it;

static void begin(struct timespec now)
{
    it.is_begun = true;
    it.is_terminal = isatty(STDERR_FILENO);
    it.begun = now;
    say_after(progress_end);
}

static void write_progress(const char *name, off_t read, off_t octets, double seconds)
{
    double mega = (double)read / 1e6;
    if (octets > 0) {
        double part = (double)read / (double)octets, left = part > 0 ? seconds / part - seconds : 0;
        fprintf(stderr, "\r\033[K%s: %.1f of %.1f MB, %.0f %%, %.1f MB/s, %.0f s left", name, mega, (double)octets / 1e6, part * 100, mega / seconds, left);
    } else
        fprintf(stderr, "\r\033[K%s: %.1f MB, %.1f MB/s", name, mega, mega / seconds);
    fflush(stderr);
    it.is_shown = true;
}

void progress_show(const char *name, off_t read, off_t octets)
{
    if (it.is_begun && !it.is_terminal)
        return;
    struct timespec now;
    clock_gettime(CLOCK_MONOTONIC, &now);
    if (!it.is_begun)
        begin(now);
    long long since = stamp_between(it.begun, now);
    if (!it.is_terminal || since < first_after || stamp_between(it.due, now) < 0)
        return;
    it.due = now;
    it.due.tv_nsec += next_after;
    if (it.due.tv_nsec >= 1000000000) {
        it.due.tv_nsec -= 1000000000;
        it.due.tv_sec++;
    }
    write_progress(name, read, octets, (double)since / 1e9);
}

void progress_end(void)
{
    if (it.is_shown) {
        fputs("\r\033[K", stderr);
        fflush(stderr);
    }
    it.is_shown = false;
}
