/* A C library that moves few bytes at a time: for a report that is preloaded with it, reads and writes are short. It says so when the program
   ends. With READ_FAILS_AT=N a read fails once N bytes were read, with WRITE_FAILS_AT=N a write to standard output once N were written. */
#define _GNU_SOURCE
#include <errno.h>
#include <stdlib.h>
#include <sys/syscall.h>
#include <unistd.h>

static int reads, writes;

/* how many of count bytes are moved, of at most most, where moved are already; -1 where the call fails */
static ssize_t few(const char *name, size_t moved, size_t count, size_t most)
{
    const char *text = getenv(name);
    size_t n = count < most ? count : most;

    if (text) {
        size_t limit = strtoul(text, NULL, 10);

        if (moved >= limit) {
            errno = EIO;
            return -1;
        }
        if (n > limit - moved)
            n = limit - moved;
    }
    return n;
}

ssize_t read(int fd, void *to, size_t count)
{
    static size_t moved;
    ssize_t n = few("READ_FAILS_AT", moved, count, 61);

    if (n < 0)
        return n;
    reads += count > 61;
    n = syscall(SYS_read, fd, to, n);
    if (n > 0)
        moved += n;
    return n;
}

ssize_t write(int fd, const void *from, size_t count)
{
    static size_t moved;
    ssize_t n = fd == 1 ? few("WRITE_FAILS_AT", moved, count, 997) : (ssize_t)count;

    if (n < 0)
        return n;
    writes += count > 997;
    n = syscall(SYS_write, fd, from, n);
    if (n > 0 && fd == 1)
        moved += n;
    return n;
}

__attribute__((destructor)) static void tell(void)
{
    if (reads > 0 && writes > 0 && !getenv("READ_FAILS_AT") && !getenv("WRITE_FAILS_AT")) {
        static const char text[] = "short reads, short writes\n";
        syscall(SYS_write, 2, text, sizeof text - 1);
    }
}
