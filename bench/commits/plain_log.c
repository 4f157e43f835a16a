/* A plain log with two syncs a commit: one write of a head with its blocks and a sync, one write of a commit block and a sync. A thread
 * that waits commits what all have brought by then, and the others sleep. Where the log is full, the newest bytes of each block in it go home, home is synced, and the log begins anew. It tests nothing. */
#define _GNU_SOURCE
#include "store.h"
#include <fcntl.h>
#include <pthread.h>
#include <stdio.h>
#include <string.h>
#include <unistd.h>

#define LOG_BLOCKS 8192
#define MOST_GROUP 250

static int log_file, home_file;
static uint32_t head, sequence;
static unsigned char newest[HOME_BLOCKS][BLOCK_BYTES], is_pending[HOME_BLOCKS];

static int new_file(const char *folder, const char *name, off_t blocks)
{
    char path[4096];
    snprintf(path, sizeof path, "%s/%s", folder, name);
    int file = open(path, O_RDWR | O_CREAT | O_TRUNC, 0600);
    if (file < 0 || posix_fallocate(file, 0, blocks * BLOCK_BYTES) != 0 || fsync(file) != 0)
        fail(path);
    return file;
}

static void write_at(int file, const void *bytes, size_t length, off_t block)
{
    if (pwrite(file, bytes, length, block * BLOCK_BYTES) != (ssize_t)length)
        fail("write");
}

static void sync_file(int file)
{
    if (fdatasync(file) != 0)
        fail("sync");
}

static void checkpoint(void)
{
    for (uint32_t block = 0; block < HOME_BLOCKS; block++)
        if (is_pending[block])
            write_at(home_file, newest[block], BLOCK_BYTES, block);
    memset(is_pending, 0, sizeof is_pending);
    sync_file(home_file);
    head = 0;
}

void open_store(const char *folder)
{
    log_file = new_file(folder, "plain.log", LOG_BLOCKS);
    home_file = new_file(folder, "plain.home", HOME_BLOCKS);
}

/* What threads have brought that is to be committed at once, and what is being committed. */
static struct group {
    uint64_t number;
    uint32_t blocks[MOST_GROUP], count;
    unsigned char out[(MOST_GROUP + 1) * BLOCK_BYTES];
} groups[2] = {{.number = 1}};

static pthread_mutex_t lock = PTHREAD_MUTEX_INITIALIZER;
static pthread_cond_t moved = PTHREAD_COND_INITIALIZER;
static struct group *joining = &groups[0];
static uint64_t committed;
static int is_led;

/* Makes a group durable. One thread does so at a time. */
static void commit_group(struct group *group)
{
    static unsigned char commit[BLOCK_BYTES];
    if (head + group->count + 2 > LOG_BLOCKS)
        checkpoint();
    memcpy(group->out, &sequence, sizeof sequence);
    memcpy(group->out + 8, group->blocks, group->count * sizeof group->blocks[0]);
    write_at(log_file, group->out, (size_t)(group->count + 1) * BLOCK_BYTES, head);
    sync_file(log_file);
    memcpy(commit, &sequence, sizeof sequence);
    write_at(log_file, commit, BLOCK_BYTES, head + group->count + 1);
    sync_file(log_file);
    for (uint32_t k = 0; k < group->count; k++) {
        memcpy(newest[group->blocks[k]], group->out + (k + 1) * BLOCK_BYTES, BLOCK_BYTES);
        is_pending[group->blocks[k]] = 1;
    }
    head += group->count + 2;
    sequence++;
}

/* Commits the group that is being joined; the next one is joined meanwhile. */
static void lead(void)
{
    struct group *group = joining;
    joining = group == &groups[0] ? &groups[1] : &groups[0];
    joining->number = group->number + 1;
    joining->count = 0;
    is_led = 1;
    pthread_mutex_unlock(&lock);
    commit_group(group);
    pthread_mutex_lock(&lock);
    committed = group->number;
    is_led = 0;
    pthread_cond_broadcast(&moved);
}

void open_client(int number)
{
    (void)number;
}

void close_client(void)
{
}

void commit_blocks(const uint32_t *blocks, int count, const unsigned char *bytes)
{
    pthread_mutex_lock(&lock);
    while (joining->count + (uint32_t)count > MOST_GROUP)
        pthread_cond_wait(&moved, &lock);
    uint64_t mine = joining->number;
    memcpy(joining->blocks + joining->count, blocks, (size_t)count * sizeof blocks[0]);
    memcpy(joining->out + (joining->count + 1) * BLOCK_BYTES, bytes, (size_t)count * BLOCK_BYTES);
    joining->count += (uint32_t)count;
    while (committed < mine)
        if (is_led)
            pthread_cond_wait(&moved, &lock);
        else
            lead();
    pthread_mutex_unlock(&lock);
}

void close_store(void)
{
    checkpoint();
    close(log_file);
    close(home_file);
}
