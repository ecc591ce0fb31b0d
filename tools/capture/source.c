#include "source.h"

#include <errno.h>
#include <stdint.h>
#include <stdlib.h>
#include <string.h>
#include <sys/stat.h>
#include <unistd.h>
#include <zlib.h>

/* Blocks of pcapng, and where in them numbers stand. */
enum {
    SECTION = 0x0a0d0d0a,
    INTERFACE = 1,
    OLD_PACKET = 2,
    SIMPLE_PACKET = 3,
    PACKET = 6,
    AT_CAPTURED = 20,
    AT_FRAME = 28,
    AT_SIMPLE_FRAME = 12,
};
/* A link type that is free for private use, and the longest snapshot that libpcap takes of it. */
enum { LINK_PRIVATE = 147, LONGEST_FRAME = 262144 };
/* libpcap refuses a longer block too. */
enum { LONGEST_BLOCK = 16 * 1024 * 1024, MOST_INTERFACES = 65536, GZIP_BUFFER = 262144 };
static const uint32_t order_mark = 0x1a2b3c4d;

struct source {
    gzFile file;
    off_t octets;
    bool is_begun, is_pcapng, is_passed; /* passed: what follows goes to libpcap as it is */
    bool is_turned; /* the other order of octets than this machine's */
    uint8_t *block; /* what libpcap hasn't read yet of it */
    size_t room, at, count;
    uint16_t *links; /* of each interface of the section */
    size_t interfaces;
    uint32_t first_snapshot;
};

static uint32_t get32(const struct source *it, size_t at)
{
    uint32_t number;
    memcpy(&number, it->block + at, 4);
    return it->is_turned ? __builtin_bswap32(number) : number;
}

static uint16_t get16(const struct source *it, size_t at)
{
    uint16_t number;
    memcpy(&number, it->block + at, 2);
    return it->is_turned ? __builtin_bswap16(number) : number;
}

static void set32(struct source *it, size_t at, uint32_t number)
{
    number = it->is_turned ? __builtin_bswap32(number) : number;
    memcpy(it->block + at, &number, 4);
}

static void set16(struct source *it, size_t at, uint16_t number)
{
    number = it->is_turned ? __builtin_bswap16(number) : number;
    memcpy(it->block + at, &number, 2);
}

/* Reads on at the end of the block. Whether so many octets came; the block has those that did. */
static bool fill(struct source *it, size_t count)
{
    if (it->count + count > it->room) {
        size_t room = (it->count + count) * 2;
        uint8_t *more = realloc(it->block, room);
        if (!more)
            return false;
        it->block = more;
        it->room = room;
    }
    int came = gzread(it->file, it->block + it->count, (unsigned)count);
    if (came > 0)
        it->count += (size_t)came;
    return came == (int)count;
}

/* Makes room for so many octets inside the block. The block grows, and its two lengths say so. */
static void widen(struct source *it, size_t at, size_t count)
{
    memmove(it->block + at + count, it->block + at, it->count - at);
    it->count += count;
    set32(it, 4, (uint32_t)it->count);
    set32(it, it->count - 4, (uint32_t)it->count);
}

static bool add_interface(struct source *it)
{
    if (it->count < 20 || it->interfaces == MOST_INTERFACES)
        return false;
    uint16_t *more = realloc(it->links, (it->interfaces + 1) * sizeof *more);
    if (!more)
        return false;
    it->links = more;
    it->links[it->interfaces++] = get16(it, 8);
    if (it->interfaces == 1)
        it->first_snapshot = get32(it, 12);
    set16(it, 8, LINK_PRIVATE);
    set32(it, 12, LONGEST_FRAME);
    return true;
}

/* Makes a packet of a simple one, which has neither interface nor times: it is of interface 0. */
static void complete_simple(struct source *it)
{
    uint32_t original = get32(it, 8), held = (uint32_t)it->count - 16;
    held = held < original ? held : original;
    if (it->first_snapshot && held > it->first_snapshot)
        held = it->first_snapshot;
    widen(it, 8, AT_FRAME - AT_SIMPLE_FRAME);
    set32(it, 0, PACKET);
    memset(it->block + 8, 0, 12);
    set32(it, AT_CAPTURED, held);
    set32(it, AT_CAPTURED + 4, original);
}

static bool label_packet(struct source *it, size_t interface)
{
    uint32_t held = get32(it, AT_CAPTURED);
    if (interface >= it->interfaces || held > it->count - AT_FRAME - 4)
        return false;
    widen(it, AT_FRAME, LABEL);
    set32(it, AT_CAPTURED, held + LABEL);
    set32(it, AT_CAPTURED + 4, get32(it, AT_CAPTURED + 4) + LABEL);
    uint32_t link = it->links[interface];
    memcpy(it->block + AT_FRAME, &link, LABEL);
    return true;
}

/* Rewrites the block that was read. False: it is wrong, which libpcap is to say. */
static bool rewrite(struct source *it)
{
    switch (get32(it, 0)) {
    case SECTION:
        it->interfaces = 0;
        return true;
    case INTERFACE:
        return add_interface(it);
    case SIMPLE_PACKET:
        if (it->count < 16)
            return false;
        complete_simple(it);
        return label_packet(it, 0);
    case OLD_PACKET:
        return it->count >= AT_FRAME + 4 && label_packet(it, get16(it, 8));
    case PACKET:
        return it->count >= AT_FRAME + 4 && label_packet(it, get32(it, 8));
    default:
        return true;
    }
}

/* Reads a block of pcapng, of which so many octets are there, and rewrites it. What is wrong or cut goes to libpcap as it is. */
static void read_block(struct source *it, size_t there)
{
    it->at = 0;
    it->count = there;
    it->is_passed = true;
    if (!fill(it, 12 - there))
        return;
    uint32_t kind;
    memcpy(&kind, it->block, 4);
    if (kind == SECTION) {
        uint32_t mark;
        memcpy(&mark, it->block + 8, 4);
        it->is_turned = mark != order_mark;
    }
    uint32_t octets = get32(it, 4);
    if (octets < 12 || octets % 4 != 0 || octets > LONGEST_BLOCK || (octets > 12 && !fill(it, octets - 12)))
        return;
    it->is_passed = !rewrite(it);
}

/* Looks at the first octets of the file. */
static void begin(struct source *it)
{
    uint32_t kind = 0;
    it->is_begun = true;
    if (fill(it, sizeof kind))
        memcpy(&kind, it->block, sizeof kind);
    it->is_pcapng = kind == SECTION;
    it->is_passed = !it->is_pcapng;
    if (it->is_pcapng)
        read_block(it, sizeof kind);
}

static ssize_t read_on(void *cookie, char *to, size_t count)
{
    struct source *it = cookie;
    if (!it->is_begun)
        begin(it);
    else if (it->at == it->count && !it->is_passed)
        read_block(it, 0);
    if (it->at == it->count) {
        int came = gzread(it->file, to, (unsigned)count);
        if (came < 0)
            errno = EIO;
        return came;
    }
    size_t left = it->count - it->at, given = left < count ? left : count;
    memcpy(to, it->block + it->at, given);
    it->at += given;
    return (ssize_t)given;
}

struct source *source_open(const char *path)
{
    struct source *it = calloc(1, sizeof *it);
    if (!it)
        return NULL;
    bool is_input = strcmp(path, "-") == 0;
    errno = ENOMEM; /* what gzopen leaves if it has no memory */
    it->file = is_input ? gzdopen(dup(STDIN_FILENO), "rb") : gzopen(path, "rb");
    if (!it->file) {
        free(it);
        return NULL;
    }
    struct stat about;
    if (is_input ? fstat(STDIN_FILENO, &about) == 0 : stat(path, &about) == 0)
        it->octets = S_ISREG(about.st_mode) ? about.st_size : 0;
    gzbuffer(it->file, GZIP_BUFFER);
    return it;
}

FILE *source_stream(struct source *it)
{
    FILE *stream = fopencookie(it, "rb", (cookie_io_functions_t){.read = read_on});
    if (stream)
        setvbuf(stream, NULL, _IOFBF, 65536);
    return stream;
}

void source_close(struct source *it)
{
    gzclose(it->file);
    free(it->block);
    free(it->links);
    free(it);
}

bool source_is_labelled(const struct source *it)
{
    return it->is_pcapng;
}

off_t source_read(const struct source *it)
{
    return gzoffset(it->file);
}

off_t source_octets(const struct source *it)
{
    return it->octets;
}

const char *source_fault(struct source *it, bool *is_cut)
{
    int number;
    const char *fault = gzerror(it->file, &number);
    *is_cut = number == Z_BUF_ERROR;
    if (number == Z_OK || number == Z_STREAM_END)
        return NULL;
    return number == Z_ERRNO ? strerror(errno) : number == Z_BUF_ERROR ? "what gzip wrote is cut" : fault;
}
