/* Reads a log once and writes each copy home in the order of the log, with one fsync at the end: what a recovery costs that
 * tests nothing and looks at no revoke. Its time is the yardstick for `jbench recover`.
 *
 * usage: plain_recovery LOG HOME */
#include <fcntl.h>
#include <stdint.h>
#include <stdio.h>
#include <stdlib.h>
#include <string.h>
#include <unistd.h>

static const unsigned char MAGIC[4] = {0xc0, 0x3b, 0x39, 0x98};

static uint32_t field(const unsigned char *block, size_t at)
{
    return (uint32_t)block[at] << 24 | (uint32_t)block[at + 1] << 16 | (uint32_t)block[at + 2] << 8 | block[at + 3];
}

static void fail(const char *what)
{
    perror(what);
    exit(1);
}

static void read_block(int log, unsigned char *block, size_t size, uint32_t place)
{
    if (pread(log, block, size, (off_t)place * size) != (ssize_t)size)
        fail("read");
}

/* Writes the copies after a descriptor home; the answer is the place after them. */
static uint32_t copies(int log, int home, const unsigned char *tags, unsigned char *copy, size_t size, uint32_t place)
{
    size_t at = 12;
    for (;;) {
        uint32_t block = field(tags, at);
        unsigned flags = tags[at + 7];
        at += flags & 2 ? 8 : 24;
        read_block(log, copy, size, ++place);
        if (flags & 1)
            memcpy(copy, MAGIC, 4);
        if (pwrite(home, copy, size, (off_t)block * size) != (ssize_t)size)
            fail("write");
        if (flags & 8)
            return place + 1;
    }
}

int main(int argc, char **argv)
{
    unsigned char first[1024];
    if (argc != 3)
        return 1;
    int log = open(argv[1], O_RDWR), home = open(argv[2], O_RDWR);
    if (log < 0 || home < 0)
        fail("open");
    if (pread(log, first, sizeof first, 0) != sizeof first)
        fail("read");
    size_t size = field(first, 0x0c);
    uint32_t blocks = field(first, 0x10), sequence = field(first, 0x18), place = field(first, 0x1c);
    unsigned char *block = malloc(size), *copy = malloc(size);
    while (place < blocks) {
        read_block(log, block, size, place);
        if (memcmp(block, MAGIC, 4) != 0 || field(block, 8) != sequence)
            break;
        if (field(block, 4) == 1)
            place = copies(log, home, block, copy, size, place);
        else {
            sequence += field(block, 4) == 2;
            place++;
        }
    }
    if (fsync(home) != 0)
        fail("fsync");
    printf("end=%u\n", sequence);
    return 0;
}
