/* Reads a log twice, as a recovery must that writes nothing before it has tested the header of each block of the ring and holds one
 * buffer: first all headers, and where the newest copy of each home block stands; then each newest copy goes home in the order of the
 * log, with one fsync at the end. Blocks that follow one another are read 64 KiB at a time. It looks at no revoke, and its table has
 * a place for each home block. Beside `plain_recovery` its time tells what the second reading costs, and beside `jbench recover` what is left to gain.
 *
 * usage: checked_recovery LOG HOME */
#include <fcntl.h>
#include <stdint.h>
#include <stdio.h>
#include <stdlib.h>
#include <string.h>
#include <unistd.h>

enum { WINDOW = 65536, DESCRIPTOR = 1, COMMIT = 2, ESCAPED = 1, SAME_UUID = 2, LAST = 8 };

static const unsigned char MAGIC[4] = {0xc0, 0x3b, 0x39, 0x98};

/* The log: its block size, how many blocks it has, and those that were read last. */
struct log {
    int file;
    size_t size;
    uint32_t blocks;
    unsigned char window[WINDOW];
    uint32_t from, to;
};

static uint32_t field(const unsigned char *block, size_t at)
{
    return (uint32_t)block[at] << 24 | (uint32_t)block[at + 1] << 16 | (uint32_t)block[at + 2] << 8 | block[at + 3];
}

static void fail(const char *what)
{
    perror(what);
    exit(1);
}

/* The block at this place, until another is asked for. Where it follows the last ones, those after it are read as well. */
static unsigned char *block_at(struct log *log, uint32_t place)
{
    if (place < log->from || place >= log->to) {
        size_t most = place == log->to ? WINDOW : log->size;
        ssize_t bytes = pread(log->file, log->window, most, (off_t)place * log->size);
        if (bytes < (ssize_t)log->size)
            fail("read");
        log->from = place;
        log->to = place + bytes / log->size;
    }
    return log->window + (place - log->from) * log->size;
}

/* The greatest sequence of a header in the ring. */
static uint32_t greatest_sequence(struct log *log)
{
    uint32_t greatest = 0;
    for (uint32_t place = 1; place < log->blocks; place++) {
        const unsigned char *block = block_at(log, place);
        if (memcmp(block, MAGIC, 4) == 0 && field(block, 8) > greatest)
            greatest = field(block, 8);
    }
    return greatest;
}

/* Goes over the copies after a descriptor: notes where each stands, or writes those home that are the newest of their block. The
 * answer is the place after them. */
static uint32_t copies(struct log *log, int home, const unsigned char *tags, uint32_t *newest, uint32_t place)
{
    size_t at = 12;
    for (;;) {
        uint32_t block = field(tags, at);
        unsigned flags = tags[at + 7];
        at += flags & SAME_UUID ? 8 : 24;
        place++;
        if (home < 0)
            newest[block] = place;
        else if (newest[block] == place) {
            unsigned char *copy = block_at(log, place);
            if (flags & ESCAPED)
                memcpy(copy, MAGIC, 4);
            if (pwrite(home, copy, log->size, (off_t)block * log->size) != (ssize_t)log->size)
                fail("write");
        }
        if (flags & LAST)
            return place + 1;
    }
}

/* Goes over the complete transactions, to note copies, or to write them to this file. The answer is the number after them. */
static uint32_t pass(struct log *log, int home, uint32_t *newest, uint32_t sequence, uint32_t place)
{
    unsigned char tags[4096];
    while (place < log->blocks) {
        memcpy(tags, block_at(log, place), log->size);
        if (memcmp(tags, MAGIC, 4) != 0 || field(tags, 8) != sequence)
            break;
        if (field(tags, 4) == DESCRIPTOR)
            place = copies(log, home, tags, newest, place);
        else {
            sequence += field(tags, 4) == COMMIT;
            place++;
        }
    }
    return sequence;
}

int main(int argc, char **argv)
{
    static struct log log;
    unsigned char first[1024];
    if (argc != 3)
        return 1;
    log.file = open(argv[1], O_RDWR);
    int home = open(argv[2], O_RDWR);
    if (log.file < 0 || home < 0)
        fail("open");
    if (pread(log.file, first, sizeof first, 0) != sizeof first)
        fail("read");
    log.size = field(first, 0x0c);
    log.blocks = field(first, 0x10);
    uint32_t sequence = field(first, 0x18), start = field(first, 0x1c);
    uint32_t *newest = calloc(lseek(home, 0, SEEK_END) / log.size, sizeof *newest);
    if (newest == NULL)
        fail("memory");
    uint32_t greatest = greatest_sequence(&log);
    uint32_t end = pass(&log, -1, newest, sequence, start);
    if (greatest > end)
        return 1;
    pass(&log, home, newest, sequence, start);
    if (fsync(home) != 0)
        fail("fsync");
    printf("end=%u\n", end);
    return 0;
}
