/* The octets of a capture file as libpcap is to read them: unpacked if the file is packed by gzip, and pcapng with one link type.

   libpcap refuses a pcapng file whose interfaces have unlike link types or snapshot lengths. So each frame of pcapng gets four octets
   in front, the number of its link type, and all interfaces get the same link type and snapshot length. */
#ifndef SOURCE_H
#define SOURCE_H

#include <stdbool.h>
#include <stdio.h>
#include <sys/types.h>

enum { LABEL = 4 };

struct source;

/* Opens a file, or standard input if the path is `-`. NULL: errno says why. */
struct source *source_open(const char *path);

/* The stream for libpcap, which closes it. The source stays until source_close. */
FILE *source_stream(struct source *it);
void source_close(struct source *it);

/* Whether frames have a label in front. Known once the stream's first octets were read. */
bool source_is_labelled(const struct source *it);

/* Octets of the file that were read, and the file's octets, 0 if that isn't known. */
off_t source_read(const struct source *it);
off_t source_octets(const struct source *it);

/* Why reading failed before the end of the file, or NULL. *is_cut: the file ends inside what gzip wrote. */
const char *source_fault(struct source *it, bool *is_cut);

#endif
