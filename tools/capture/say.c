#include "say.h"

#include <fcntl.h>
#include <stdarg.h>
#include <stdio.h>
#include <stdlib.h>
#include <unistd.h>

static const char *own_name = "";
static enum status reached = ALL_DONE;
static void (*clear_first)(void);

/* Opens the standard streams that are closed, in the way in which they aren't used. The lowest free number is given first. */
static void fill_streams(void)
{
    for (int stream = STDIN_FILENO; stream <= STDERR_FILENO; stream++)
        if (fcntl(stream, F_GETFD) < 0 && open("/dev/null", stream == STDIN_FILENO ? O_WRONLY : O_RDONLY) < 0)
            _exit(FAILED);
}

void say_as(const char *name)
{
    own_name = name;
    fill_streams();
}

void say_after(void (*clear)(void))
{
    clear_first = clear;
}

/* A line in one write, so that lines of a pipeline's programs aren't mixed. */
static void write_line(const char *format, va_list values)
{
    char text[1024];
    if (clear_first)
        clear_first();
    vsnprintf(text, sizeof text, format, values);
    char line[1200];
    snprintf(line, sizeof line, "%s: %s\n", own_name, text);
    fputs(line, stderr);
    fflush(stderr);
}

static void reach(enum status status)
{
    if (status > reached)
        reached = status;
}

void say(const char *format, ...)
{
    va_list values;
    va_start(values, format);
    write_line(format, values);
    va_end(values);
}

void say_left_out(const char *format, ...)
{
    va_list values;
    va_start(values, format);
    write_line(format, values);
    va_end(values);
    reach(LEFT_OUT);
}

void say_failed(const char *format, ...)
{
    va_list values;
    va_start(values, format);
    write_line(format, values);
    va_end(values);
    reach(FAILED);
}

void give_up(enum status status, const char *format, ...)
{
    va_list values;
    va_start(values, format);
    write_line(format, values);
    va_end(values);
    exit(status);
}

enum status status_so_far(void)
{
    return reached;
}
