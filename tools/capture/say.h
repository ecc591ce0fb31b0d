/* Lines on standard error, and the status with which a run ends. */
#ifndef SAY_H
#define SAY_H

/* As docs/ENDINGS.md has them. */
enum status { ALL_DONE = 0, WRONG_WORDS = 1, FILTER_REFUSED = 2, LEFT_OUT = 3, FAILED = 4 };

/* Begins a run. The name begins each line. A standard stream that is closed fails when it is used: no file or socket takes its number. */
void say_as(const char *name);
/* Writes a line: the name, and what the format makes. */
void say(const char *format, ...) __attribute__((format(printf, 1, 2)));
/* The same of something that was left out or refused: the run ends with LEFT_OUT, if not with FAILED. */
void say_left_out(const char *format, ...) __attribute__((format(printf, 1, 2)));
/* The same of something outside that failed, after which the run goes on: it ends with FAILED. */
void say_failed(const char *format, ...) __attribute__((format(printf, 1, 2)));
/* The same, and ends the run. */
_Noreturn void give_up(enum status status, const char *format, ...) __attribute__((format(printf, 2, 3)));
/* The status of a run that ends now. */
enum status status_so_far(void);
/* What is called before each line: the progress, to take itself off the terminal. */
void say_after(void (*clear)(void));

#endif
