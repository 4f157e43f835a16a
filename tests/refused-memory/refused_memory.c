/* Wraps the requests for memory of a program that is linked to glibc 2.34 or later (-shared -fPIC -O2 -nostdlib, loaded by LD_PRELOAD).
 *
 * REFUSED=K     request K of all, from 1, is refused; a new thread, whose stack is memory too, is a request of no bytes
 * CALLS=PATH    a line for each request, and for each call that writes to a file or brings one to its disk, in their order
 * COUNT=PATH    how many requests there were, once the program ends: by its return, or by _exit
 *
 * The program's output and its messages are calls like others: a line of CALLS that begins with `print` ends what came to that output.
 *
 * It names what it calls itself, as Linux has it on x86-64, so that a compiler without headers builds it too: that of the kit.
 */
typedef unsigned long size_t;
typedef long ssize_t;
typedef long off_t;

#define NEXT ((void *)-1)
#define NEW_FILE (01 | 0100 | 01000) /* to write, created, cut to nothing */
#define APPENDED (02000 | 02000000)  /* at its end, and closed by another program */
#define NO_MEMORY 12
#define NO_THREAD 11

void *dlsym(void *where, const char *name);
char *getenv(const char *name);
int open(const char *path, int flags, ...);
int dprintf(int file, const char *format, ...);
int snprintf(char *text, size_t length, const char *format, ...);
unsigned long strtoul(const char *text, char **end, int base);
int *__errno_location(void);

void *__libc_malloc(size_t size);
void *__libc_realloc(void *block, size_t size);

static unsigned long requests, refused;
static int calls = -1;

static ssize_t (*real_write)(int, const void *, size_t);

static void tell(const char *text, size_t length)
{
    if (calls >= 0)
        real_write(calls, text, length);
}

static void tell_number(const char *name, unsigned long number)
{
    char line[64];
    if (calls >= 0)
        tell(line, snprintf(line, sizeof line, "%s %lu\n", name, number));
}

__attribute__((constructor)) static void begin(void)
{
    real_write = dlsym(NEXT, "write");
    if (getenv("CALLS"))
        calls = open(getenv("CALLS"), NEW_FILE | APPENDED, 0666);
    if (getenv("REFUSED"))
        refused = strtoul(getenv("REFUSED"), 0, 10);
    requests = 0; /* those of the wrapper itself are none of the program */
}

__attribute__((destructor)) static void end(void)
{
    const char *path = getenv("COUNT");
    int file = path ? open(path, NEW_FILE, 0666) : -1;
    if (file >= 0)
        dprintf(file, "%lu\n", requests);
}

void _exit(int status)
{
    void (*real)(int) = (void (*)(int))dlsym(NEXT, "_exit");
    end();
    real(status);
    __builtin_unreachable();
}

static int is_refused(size_t size)
{
    unsigned long number = __atomic_add_fetch(&requests, 1, __ATOMIC_SEQ_CST);
    tell_number("request", size);
    if (number != refused)
        return 0;
    *__errno_location() = NO_MEMORY;
    return 1;
}

void *malloc(size_t size)
{
    return is_refused(size) ? 0 : __libc_malloc(size);
}

void *realloc(void *block, size_t size)
{
    return is_refused(size) ? 0 : __libc_realloc(block, size);
}

int pthread_create(unsigned long *thread, const void *attributes, void *(*run)(void *), void *given)
{
    int (*real)(unsigned long *, const void *, void *(*)(void *), void *) = dlsym(NEXT, "pthread_create");
    return is_refused(0) ? NO_THREAD : real(thread, attributes, run, given);
}

ssize_t write(int file, const void *bytes, size_t length)
{
    if (!real_write)
        real_write = dlsym(NEXT, "write");
    if (file == 1) {
        tell("print ", 6);
        tell(bytes, length);
    }
    return real_write(file, bytes, length);
}

ssize_t pwrite(int file, const void *bytes, size_t length, off_t at)
{
    static ssize_t (*real)(int, const void *, size_t, off_t);
    if (!real)
        real = dlsym(NEXT, "pwrite");
    tell_number("write", length);
    return real(file, bytes, length, at);
}

int fdatasync(int file)
{
    static int (*real)(int);
    if (!real)
        real = dlsym(NEXT, "fdatasync");
    tell("sync\n", 5);
    return real(file);
}
