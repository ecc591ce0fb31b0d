#include "words.h"

#include "say.h"

#include <errno.h>
#include <getopt.h>
#include <stdarg.h>
#include <stdio.h>
#include <stdlib.h>
#include <string.h>

static int shift_of(const char *suffix)
{
    static const char suffixes[] = "kMG";
    const char *found = *suffix ? strchr(suffixes, *suffix) : NULL;
    if (*suffix == '\0')
        return 0;
    return found && suffix[1] == '\0' ? (int)(found - suffixes + 1) * 10 : -1;
}

long long number_of(const char *option, const char *text, long long least, long long most)
{
    char *end;
    errno = 0;
    long long number = strtoll(text, &end, 10);
    int shift = end == text || errno ? -1 : shift_of(end);
    if (shift >= 0 && number >= 0 && number <= most >> shift && number << shift >= least)
        return number << shift;
    refuse_words("%s: %s isn't a whole number from %lld to %lld", option, text, least, most);
}

void write_help(const char *text)
{
    fputs(text, stdout);
    exit(fflush(stdout) == 0 ? ALL_DONE : FAILED);
}

void refuse_words(const char *format, ...)
{
    char text[600];
    va_list values;
    va_start(values, format);
    vsnprintf(text, sizeof text, format, values);
    va_end(values);
    give_up(WRONG_WORDS, "%s (--help tells the words)", text);
}

void refuse_option(char **given)
{
    refuse_words("%s: no such option, or its word lacks", given[optind - 1]);
}
