/* Durable transactions of a few blocks each, one after the other in each of so many threads, for so many seconds; prints how many there
 * were and how long a commit took.
 *
 * usage: PROGRAM FOLDER SECONDS COPIES [THREADS] */
#include "store.h"
#include <pthread.h>
#include <stdio.h>
#include <stdlib.h>
#include <string.h>
#include <time.h>

#define MOST_COMMITS 8000000
#define MOST_THREADS 64

/* A thread, what it draws, and how long its commits took. */
struct client {
    pthread_t thread;
    int number, copies;
    uint64_t state, before, end;
    uint32_t *times;
    size_t commits, most;
};

void fail(const char *what)
{
    perror(what);
    exit(1);
}

static uint64_t now(void)
{
    struct timespec time;
    clock_gettime(CLOCK_MONOTONIC, &time);
    return (uint64_t)time.tv_sec * 1000000000u + (uint64_t)time.tv_nsec;
}

/* The next number of a client's generator (xorshift64). */
static uint64_t draw(struct client *client)
{
    client->state ^= client->state << 13;
    client->state ^= client->state >> 7;
    client->state ^= client->state << 17;
    return client->state;
}

static int stands(const uint32_t *blocks, int count, uint32_t block)
{
    for (int k = 0; k < count; k++)
        if (blocks[k] == block)
            return 1;
    return 0;
}

static int compare(const void *a, const void *b)
{
    uint32_t left = *(const uint32_t *)a, right = *(const uint32_t *)b;
    return left < right ? -1 : left > right;
}

/* One durable transaction after the other, until the time is over. */
static void *work(void *argument)
{
    struct client *client = argument;
    unsigned char bytes[MOST_COPIES * BLOCK_BYTES];
    uint32_t blocks[MOST_COPIES];
    open_client(client->number);
    while (client->before < client->end && client->commits < client->most) {
        for (int k = 0; k < client->copies; k++) {
            do
                blocks[k] = draw(client) % HOME_BLOCKS;
            while (stands(blocks, k, blocks[k]));
            memset(bytes + k * BLOCK_BYTES, (int)(client->commits + k), BLOCK_BYTES);
        }
        commit_blocks(blocks, client->copies, bytes);
        uint64_t after = now();
        client->times[client->commits++] = (uint32_t)(after - client->before);
        client->before = after;
    }
    close_client();
    return NULL;
}

int main(int argc, char **argv)
{
    static struct client clients[MOST_THREADS];
    static uint32_t times[MOST_COMMITS];
    int copies = argc >= 4 ? atoi(argv[3]) : 0, threads = argc == 5 ? atoi(argv[4]) : 1;
    if (argc > 5 || copies < 1 || copies > MOST_COPIES || threads < 1 || threads > MOST_THREADS)
        return 1;
    open_store(argv[1]);
    size_t most = MOST_COMMITS / (size_t)threads, commits = 0;
    uint64_t begun = now(), end = begun + (uint64_t)(atof(argv[2]) * 1e9), last = begun;
    for (int k = 0; k < threads; k++) {
        clients[k] = (struct client){.number = k, .copies = copies, .before = begun, .end = end, .times = times + k * most, .most = most};
        clients[k].state = 20260101u + (uint64_t)k * 7919u;
        if (k > 0 && pthread_create(&clients[k].thread, NULL, work, &clients[k]) != 0)
            fail("pthread_create");
    }
    work(&clients[0]);
    for (int k = 0; k < threads; k++) {
        if (k > 0)
            pthread_join(clients[k].thread, NULL);
        memmove(times + commits, clients[k].times, clients[k].commits * sizeof times[0]);
        commits += clients[k].commits;
        last = clients[k].before > last ? clients[k].before : last;
    }
    close_store();
    double seconds = (double)(last - begun) / 1e9;
    qsort(times, commits, sizeof times[0], compare);
    printf("transactions=%zu seconds=%.2f transactions/s=%.0f blocks/s=%.0f median=%.1fus 99%%=%.1fus greatest=%.1fus\n", commits,
           seconds, commits / seconds, commits * copies / seconds, times[commits / 2] / 1e3, times[commits * 99 / 100] / 1e3,
           times[commits - 1] / 1e3);
    return 0;
}
