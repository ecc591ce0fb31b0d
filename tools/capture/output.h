/* Standard output, whose octets are held back until there are many of them. */
#ifndef OUTPUT_H
#define OUTPUT_H

#include <stddef.h>
#include <stdint.h>

/* Called before held octets are written: what is to stand before them elsewhere. */
void output_after(void (*before)(void));

/* Takes these octets, at most 65,536. They are written together, or in one piece with others. */
void output_put(const uint8_t *octets, size_t count);

/* Writes what is held. If the reader is gone or the device is full, a line says so and the run ends. */
void output_flush(void);

/* Ends the run with the line of a failed write, for this errno. */
_Noreturn void output_failed(int number);

#endif
