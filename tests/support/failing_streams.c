/* Reads and writes of a program that fail, end early or give little: see tests/streams. For each of the streams 0, 1 and 2 the
   variable STREAM0, STREAM1 or STREAM2 has a way, a blank, and the number of the call from which on it holds, counted from 1:
     fail     the call fails with EIO
     only     the one call of that number fails with EIO, and no other
     nothing  a write takes no byte; a read gives none, as at an end
     once     the one call of that number is interrupted (EINTR), and no other
     byte     each call gives or takes one byte at most
     endless  each read gives the byte `#`, without end
     late     each call before gives or takes one byte at most, and from there on all fail
     empty    the same, and from there on all give or take nothing */
#define _GNU_SOURCE
#include <dlfcn.h>
#include <errno.h>
#include <stdatomic.h>
#include <stdlib.h>
#include <string.h>
#include <unistd.h>

enum { NONE, FAIL, NOTHING, ONCE, BYTE, ENDLESS, LATE, EMPTY, ONLY, WAYS };

static struct { int way; unsigned long from; atomic_ulong calls; } streams[3];
static ssize_t (*real_read)(int, void *, size_t);
static ssize_t (*real_write)(int, const void *, size_t);

__attribute__((constructor)) static void begin(void)
{
    static const char *const names[] = { "none", "fail", "nothing", "once", "byte", "endless", "late", "empty", "only" };
    char variable[] = "STREAM0";
    real_read = dlsym(RTLD_NEXT, "read");
    real_write = dlsym(RTLD_NEXT, "write");
    for (int it = 0; it < 3; it++) {
        variable[6] = (char)('0' + it);
        const char *text = getenv(variable), *blank = text ? strchr(text, ' ') : NULL;
        if (blank == NULL)
            continue;
        streams[it].from = strtoul(blank, NULL, 10);
        for (int way = 0; way < WAYS; way++)
            if (strncmp(text, names[way], (size_t)(blank - text)) == 0)
                streams[it].way = way;
    }
}

static int way_of(int stream)
{
    unsigned long number = stream >= 0 && stream < 3 ? atomic_fetch_add(&streams[stream].calls, 1) + 1 : 0;
    int way = number ? streams[stream].way : NONE;
    if (way == LATE || way == EMPTY)
        return number < streams[stream].from ? BYTE : way == LATE ? FAIL : NOTHING;
    return number < streams[stream].from || ((way == ONCE || way == ONLY) && number > streams[stream].from) ? NONE : way;
}

ssize_t read(int stream, void *bytes, size_t count)
{
    switch (way_of(stream)) {
    case FAIL: case ONLY: errno = EIO; return -1;
    case ONCE: errno = EINTR; return -1;
    case NOTHING: return 0;
    case BYTE: return real_read(stream, bytes, count < 1 ? count : 1);
    case ENDLESS: memset(bytes, '#', count < 1 ? count : 1); return count < 1 ? 0 : 1;
    default: return real_read(stream, bytes, count);
    }
}

ssize_t write(int stream, const void *bytes, size_t count)
{
    switch (way_of(stream)) {
    case FAIL: case ONLY: errno = EIO; return -1;
    case ONCE: errno = EINTR; return -1;
    case NOTHING: return 0;
    case BYTE: return real_write(stream, bytes, count < 1 ? count : 1);
    default: return real_write(stream, bytes, count);
    }
}

ssize_t __write(int stream, const void *bytes, size_t count)
{
    return write(stream, bytes, count);
}
