#include "receive.h"

#include "blocks.h"
#include "output.h"
#include "say.h"
#include "stamp.h"
#include "stopping.h"
#include "times.h"

#include <errno.h>
#include <linux/sock_diag.h>
#include <poll.h>
#include <string.h>
#include <unistd.h>

enum {
    DATAGRAM_MOST = 65536,
    AT_ONCE = 64, /* datagrams between two looks at standard output */
    DRAINED_MOST = 1000000, /* datagrams that are still taken after a signal */
    PATIENCE = 1000, /* milliseconds for a reader that doesn't read, after a signal */
    PIECE = 4096, /* octets that fit into a pipe of which poll says that it can be written */
};
static const long long between_lines = 1000000000;

/* A datagram as it came. */
struct received {
    struct endpoint source;
    struct timespec time;
    uint32_t lost; /* datagrams that the kernel dropped before it, of all time */
    size_t count;
    uint8_t payload[DATAGRAM_MOST];
};

static struct {
    int socket;
    struct endpoint at, source;
    bool has_source;
    unsigned long long datagrams, blocks;
    uint32_t lost, said_lost; /* dropped by the kernel, and those of which a line spoke */
    struct timespec said;
} it;

static void say_lost(void)
{
    if (it.lost == it.said_lost)
        return;
    say_left_out("before block %llu: %u datagrams are lost, since the kernel's buffer was full (%u in all)", it.blocks, it.lost - it.said_lost, it.lost);
    it.said_lost = it.lost;
    clock_gettime(CLOCK_MONOTONIC, &it.said);
}

/* Notes the kernel's count. While datagrams come, there is a line a second. */
static void note_lost(uint32_t lost)
{
    struct timespec now;
    it.lost = lost;
    if (it.lost == it.said_lost)
        return;
    clock_gettime(CLOCK_MONOTONIC, &now);
    if (!it.said.tv_sec || stamp_between(it.said, now) >= between_lines)
        say_lost();
}

/* Asks the kernel for its count, which it otherwise tells with the next datagram. */
static void look_for_lost(void)
{
    uint32_t numbers[SK_MEMINFO_VARS] = {0};
    socklen_t octets = sizeof numbers;
    if (getsockopt(it.socket, SOL_SOCKET, SO_MEMINFO, numbers, &octets) == 0 && octets > SK_MEMINFO_DROPS * sizeof numbers[0])
        it.lost = numbers[SK_MEMINFO_DROPS];
    say_lost();
}

/* Writes octets on standard output, in one write if nothing interrupts it. After a signal a reader that doesn't read isn't waited for. */
static void write_whole(const uint8_t *octets, size_t count)
{
    while (count > 0) {
        size_t piece = count;
        if (stopped_by) {
            struct pollfd room = {.fd = STDOUT_FILENO, .events = POLLOUT};
            if (poll(&room, 1, PATIENCE) == 0)
                give_up(FAILED, "the reader of standard output doesn't read: the last datagram isn't written whole");
            piece = count < PIECE ? count : PIECE;
        }
        ssize_t wrote = write(STDOUT_FILENO, octets, piece);
        if (wrote < 0 && errno != EINTR)
            output_failed(errno);
        octets += wrote > 0 ? wrote : 0;
        count -= wrote > 0 ? (size_t)wrote : 0;
    }
}

/* Takes what the kernel tells beside a datagram. */
static void read_notes(struct msghdr *message, struct received *datagram)
{
    for (struct cmsghdr *note = CMSG_FIRSTHDR(message); note; note = CMSG_NXTHDR(message, note)) {
        if (note->cmsg_level != SOL_SOCKET)
            continue;
        if (note->cmsg_type == SO_RXQ_OVFL)
            memcpy(&datagram->lost, CMSG_DATA(note), sizeof datagram->lost);
        else if (note->cmsg_type == SO_TIMESTAMPNS)
            memcpy(&datagram->time, CMSG_DATA(note), sizeof datagram->time);
    }
}

/* The next datagram that is there already; false if there is none. */
static bool take(struct received *datagram)
{
    struct sockaddr_storage source;
    struct iovec to = {datagram->payload, sizeof datagram->payload};
    _Alignas(struct cmsghdr) uint8_t notes[256];
    struct msghdr message = {.msg_name = &source, .msg_namelen = sizeof source, .msg_iov = &to, .msg_iovlen = 1, .msg_control = notes,
                             .msg_controllen = sizeof notes};
    ssize_t count;
    do
        count = recvmsg(it.socket, &message, MSG_DONTWAIT);
    while (count < 0 && errno == EINTR);
    if (count < 0 && errno != EAGAIN && errno != EWOULDBLOCK)
        give_up(FAILED, "nothing can be received any more: %s", strerror(errno));
    if (count < 0)
        return false;
    datagram->count = (size_t)count;
    datagram->source = endpoint_of(&source);
    datagram->lost = it.lost;
    datagram->time = (struct timespec){0};
    read_notes(&message, datagram);
    return true;
}

static void write_datagram(const struct received *datagram)
{
    if (it.has_source && !same_address(&datagram->source, &it.source))
        return;
    it.datagrams++;
    struct framing framing = framing_of(datagram->payload, datagram->count);
    if (framing.fault[0]) {
        char time[STAMP_TEXT], from[ENDPOINT_TEXT], to[ENDPOINT_TEXT];
        say_left_out("datagram %llu %s %s > %s: left out: not whole data blocks: %s", it.datagrams - 1, stamp_text(datagram->time, time),
                     endpoint_text(&datagram->source, from), endpoint_text(&it.at, to), framing.fault);
        return;
    }
    times_add(framing.blocks, datagram->time, &datagram->source, &it.at);
    times_flush();
    write_whole(datagram->payload, datagram->count);
    it.blocks += framing.blocks;
}

/* Takes the datagrams that are there, a number of them. */
static void take_some(struct received *datagram)
{
    for (int at = 0; at < AT_ONCE && !stopped_by && take(datagram); at++) {
        note_lost(datagram->lost);
        write_datagram(datagram);
    }
}

/* Takes the datagrams that were there when the signal came. */
static void drain(struct received *datagram)
{
    struct timespec end = stopped_at();
    for (int at = 0; at < DRAINED_MOST && take(datagram) && stamp_between(datagram->time, end) >= 0; at++) {
        note_lost(datagram->lost);
        write_datagram(datagram);
    }
}

void receive_blocks(const struct endpoint *at, const struct ways *ways, const char *times)
{
    static struct received datagram;
    it.at = *at;
    it.has_source = ways->source != NULL;
    it.socket = receiving_socket(at, ways, &it.source);
    if (times)
        times_begin(times);
    while (!stopped_by) {
        struct pollfd looked[] = {{.fd = it.socket, .events = POLLIN}, {.fd = STDOUT_FILENO}};
        int ready = poll(looked, 2, LOOK_EVERY);
        if (ready > 0 && looked[1].revents & POLLERR)
            output_failed(EPIPE);
        if (ready > 0)
            take_some(&datagram);
        else if (ready == 0)
            look_for_lost();
    }
    drain(&datagram);
    look_for_lost();
    close(it.socket);
}
