/* Random writes of 4096 bytes to an NBD server, and a flush after each 16th, with up to 16 requests at once. Says how many writes a second
 * were answered.
 *
 * usage: flushed_writes SOCKET SECONDS
 *
 * fio's fsync=16 sends nearly a flush for each write at this depth. This client sends one in 17 requests. */
#include <endian.h>
#include <errno.h>
#include <signal.h>
#include <stdint.h>
#include <stdio.h>
#include <stdlib.h>
#include <string.h>
#include <sys/socket.h>
#include <sys/time.h>
#include <sys/uio.h>
#include <sys/un.h>
#include <time.h>
#include <unistd.h>

enum { DEPTH = 16, BETWEEN_FLUSHES = 16, BLOCK = 4096, REPLY = 16 };

struct request {
    uint32_t magic;
    uint16_t flags, command;
    uint64_t cookie, offset;
    uint32_t length;
} __attribute__((packed));

struct reply {
    uint32_t magic, error;
    uint64_t cookie;
} __attribute__((packed));

static void fail(const char *what) {
    fprintf(stderr, "flushed_writes: %s: %s\n", what, errno ? strerror(errno) : "the server ended, or sent other bytes");
    exit(1);
}

static void read_all(int server, void *into, size_t length) {
    for (char *at = into; length > 0;) {
        ssize_t n = read(server, at, length);
        if (n <= 0) fail("read");
        at += n;
        length -= n;
    }
}

static void write_all(int server, struct iovec *parts, int count) {
    size_t length = 0;
    for (int i = 0; i < count; i++) length += parts[i].iov_len;
    errno = 0;
    if (writev(server, parts, count) != (ssize_t)length) fail("write");
}

/* Shakes hands for the default export, and returns its size in bytes. */
static uint64_t shake_hands(int server) {
    struct __attribute__((packed)) {
        uint64_t magic, options;
        uint16_t flags;
    } greeting;
    struct __attribute__((packed)) {
        uint32_t flags;
        uint64_t magic;
        uint32_t option, length;
    } answer = {htobe32(3), htobe64(0x49484156454F5054), htobe32(1), 0};
    struct __attribute__((packed)) {
        uint64_t size;
        uint16_t flags;
    } export;
    read_all(server, &greeting, sizeof greeting);
    if (be64toh(greeting.magic) != 0x4e42444d41474943) fail("greeting");
    write_all(server, &(struct iovec){&answer, sizeof answer}, 1);
    read_all(server, &export, sizeof export);
    return be64toh(export.size);
}

static double now(void) {
    struct timespec t;
    clock_gettime(CLOCK_MONOTONIC, &t);
    return t.tv_sec + t.tv_nsec / 1e9;
}

static uint64_t random_block(uint64_t blocks) {
    static uint64_t state = 88172645463325252u;
    state ^= state << 13;
    state ^= state >> 7;
    state ^= state << 17;
    return state % blocks;
}

int main(int argc, char **argv) {
    if (argc != 3) {
        fprintf(stderr, "usage: flushed_writes SOCKET SECONDS\n");
        return 1;
    }
    signal(SIGPIPE, SIG_IGN);
    struct sockaddr_un name = {.sun_family = AF_UNIX};
    strncpy(name.sun_path, argv[1], sizeof name.sun_path - 1);
    int server = socket(AF_UNIX, SOCK_STREAM, 0);
    if (server < 0 || connect(server, (struct sockaddr *)&name, sizeof name) < 0) fail(argv[1]);
    setsockopt(server, SOL_SOCKET, SO_RCVTIMEO, &(struct timeval){.tv_sec = 60}, sizeof(struct timeval));
    uint64_t blocks = shake_hands(server) / BLOCK;

    static char block[BLOCK];
    memset(block, 'w', BLOCK);
    struct reply replies[DEPTH];
    uint64_t sent = 0, answered = 0, writes = 0;
    double begun = now(), end = begun + atof(argv[2]);
    size_t kept = 0;
    while (now() < end || answered < sent) {
        while (sent - answered < DEPTH && now() < end) {
            int flush = sent % (BETWEEN_FLUSHES + 1) == BETWEEN_FLUSHES;
            struct request request = {htobe32(0x25609513), 0, htobe16(flush ? 3 : 1), htobe64(sent),
                                      htobe64(flush ? 0 : random_block(blocks) * BLOCK), htobe32(flush ? 0 : BLOCK)};
            struct iovec parts[2] = {{&request, sizeof request}, {block, BLOCK}};
            write_all(server, parts, flush ? 1 : 2);
            sent++;
        }
        if (answered == sent) break;
        errno = 0;
        ssize_t n = read(server, (char *)replies + kept, sizeof replies - kept);
        if (n <= 0) fail("read");
        kept += n;
        size_t whole = kept / REPLY;
        for (size_t i = 0; i < whole; i++) {
            if (be32toh(replies[i].magic) != 0x67446698 || replies[i].error != 0) fail("answer");
            writes += be64toh(replies[i].cookie) % (BETWEEN_FLUSHES + 1) != BETWEEN_FLUSHES;
        }
        answered += whole;
        memmove(replies, replies + whole, kept - whole * REPLY);
        kept -= whole * REPLY;
    }
    printf("%.0f\n", writes / (now() - begun));
    struct request leave = {htobe32(0x25609513), 0, htobe16(2), 0, 0, 0};
    write_all(server, &(struct iovec){&leave, sizeof leave}, 1);
    return 0;
}
