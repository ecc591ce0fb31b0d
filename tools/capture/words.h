/* The words of a command: numbers among them, and what --help writes. */
#ifndef WORDS_H
#define WORDS_H

/* A whole number from least to most; a suffix k, M or G stands for 1024, 1024^2, 1024^3. Else the run ends with a line. */
long long number_of(const char *option, const char *text, long long least, long long most);

/* Writes the text on standard output, and ends the run. */
_Noreturn void write_help(const char *text);

/* Ends the run with a line of what is wrong with the words. */
_Noreturn void refuse_words(const char *format, ...) __attribute__((format(printf, 1, 2)));

/* The same where getopt_long answers `?`. */
_Noreturn void refuse_option(char **given);

#endif
