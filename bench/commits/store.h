/* What each store has to do to be measured: durable transactions of a few blocks of 1024 bytes. A call that fails ends the program. */
#include <stdint.h>

#define BLOCK_BYTES 1024
#ifndef HOME_BLOCKS
#define HOME_BLOCKS 8192
#endif
#define MOST_COPIES 64

/* Makes a new store in this folder. */
void open_store(const char *folder);

/* A thread begins to use the store, and ends: threads are counted from 0. */
void open_client(int number);
void close_client(void);

/* Changes these blocks, of which none stands twice, to these bytes; all of them are durable when it comes back. Threads
 * call it at once. */
void commit_blocks(const uint32_t *blocks, int count, const unsigned char *bytes);

void close_store(void);

/* Says which call failed, and ends the program. */
void fail(const char *what);
