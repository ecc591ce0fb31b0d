#include "send.h"

#include "blocks.h"
#include "octets.h"
#include "say.h"
#include "sender.h"
#include "stopping.h"

#include <errno.h>
#include <poll.h>
#include <string.h>
#include <unistd.h>

enum { ROOM = 4 * 65536 };

static struct {
    uint8_t octets[ROOM];
    size_t at, count; /* of what isn't sent yet */
    size_t packed, packed_blocks; /* whole blocks from `at` on that are to be sent together */
    unsigned long long block, read; /* the number of the block behind these, and the octets before `at` */
    size_t most;
} it;

static void go_past(size_t count)
{
    it.at += count;
    it.read += count;
}

/* Sends the blocks that are packed. */
static void send_packed(void)
{
    if (it.packed == 0)
        return;
    sender_send(it.octets + it.at, it.packed, "block", it.block - it.packed_blocks);
    go_past(it.packed);
    it.packed = it.packed_blocks = 0;
}

static void pack(size_t length)
{
    if (it.packed + length > it.most)
        send_packed();
    it.packed += length;
    it.packed_blocks++;
    it.block++;
    if (it.packed >= it.most)
        send_packed();
}

/* Sends the whole blocks that are there. False if the next octets begin no block. */
static bool send_whole(void)
{
    while (true) {
        const uint8_t *next = it.octets + it.at + it.packed;
        size_t left = it.count - it.at - it.packed;
        long length = block_octets(next, left);
        if (length < 0) {
            send_packed();
            say_left_out("block %llu, octet %llu of the input: LEN is %u, so nothing from here on is sent", it.block, it.read, number16(next + 1));
            return false;
        }
        if (length == 0 || (size_t)length > left)
            break;
        if (length <= PAYLOAD_MOST) {
            pack((size_t)length);
            continue;
        }
        send_packed();
        say_left_out("block %llu: left out: it has %ld octets, and a datagram has at most %d", it.block, length, PAYLOAD_MOST);
        it.block++;
        go_past((size_t)length);
    }
    send_packed();
    return true;
}

/* Reads more behind what isn't sent. Returns what read does; -1 with EINTR after a signal. */
static ssize_t read_more(void)
{
    memmove(it.octets, it.octets + it.at, it.count - it.at);
    it.count -= it.at;
    it.at = 0;
    struct pollfd input = {.fd = STDIN_FILENO, .events = POLLIN};
    while (poll(&input, 1, LOOK_EVERY) == 0 && !stopped_by)
        ;
    if (stopped_by) {
        errno = EINTR;
        return -1;
    }
    ssize_t came = read(STDIN_FILENO, it.octets + it.count, ROOM - it.count);
    it.count += came > 0 ? (size_t)came : 0;
    return came;
}

void send_blocks(size_t most)
{
    ssize_t came = 0;
    it.most = most;
    while (!stopped_by && ((came = read_more()) > 0 || (came < 0 && errno == EINTR)))
        if (!send_whole())
            return;
    if (came < 0 && errno != EINTR)
        say_failed("standard input can't be read: %s", strerror(errno));
    else if (came == 0 && it.count > it.at)
        say_left_out("block %llu, octet %llu of the input: the input ends inside it", it.block, it.read);
}
