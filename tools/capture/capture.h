/* The frames of a capture file: pcap and pcapng, also packed by gzip. */
#ifndef CAPTURE_H
#define CAPTURE_H

#include "octets.h"

#include <sys/types.h>
#include <time.h>

struct frame {
    struct timespec time;
    int link; /* as link_skip takes it */
    struct slice octets;
};

struct capture;

/* Opens a capture, `-` for standard input. If it isn't one, or isn't there, a line says so, and NULL is returned. */
struct capture *capture_open(const char *path);

/* The next frame, whose octets stay until the next call. False at the end. If the file is cut, damaged or can't be read, a line has
   said so. */
bool capture_next(struct capture *it, struct frame *frame);

void capture_close(struct capture *it);

/* Octets of the file that were read, and the file's octets, 0 if that isn't known. */
off_t capture_read(const struct capture *it);
off_t capture_octets(const struct capture *it);

#endif
