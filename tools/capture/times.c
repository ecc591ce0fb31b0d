#include "times.h"

#include "say.h"
#include "stamp.h"

#include <errno.h>
#include <inttypes.h>
#include <stdio.h>
#include <string.h>

static FILE *table;
static const char *table_path;
static uint64_t block;

static void failed(void)
{
    give_up(FAILED, "%s: the times can't be written: %s", table_path, strerror(errno));
}

void times_begin(const char *path)
{
    table_path = path;
    table = fopen(path, "w");
    if (!table)
        failed();
    setvbuf(table, NULL, _IOFBF, 65536);
    fputs("block\ttime\tsource\tdestination\n", table);
    times_flush();
}

/* The ends of a datagram as the table has them. Many datagrams have the same, so their text is kept. */
static const char *ends_text(const struct endpoint *source, const struct endpoint *destination)
{
    static struct endpoint kept_source, kept_destination;
    static char text[2 * ENDPOINT_TEXT + 4];
    char from[ENDPOINT_TEXT], to[ENDPOINT_TEXT];
    if (text[0] && same_endpoint(source, &kept_source) && same_endpoint(destination, &kept_destination))
        return text;
    kept_source = *source;
    kept_destination = *destination;
    snprintf(text, sizeof text, "\t%s\t%s\n", endpoint_text(source, from), endpoint_text(destination, to));
    return text;
}

void times_add(size_t blocks, struct timespec time, const struct endpoint *source, const struct endpoint *destination)
{
    char stamp[STAMP_TEXT];
    if (!table)
        return;
    stamp_text(time, stamp);
    const char *ends = ends_text(source, destination);
    for (size_t at = 0; at < blocks; at++) {
        char number[24];
        snprintf(number, sizeof number, "%" PRIu64 "\t", block++);
        if (fputs(number, table) < 0 || fputs(stamp, table) < 0 || fputs(ends, table) < 0)
            failed();
    }
}

void times_flush(void)
{
    if (table && (fflush(table) != 0 || ferror(table)))
        failed();
}
