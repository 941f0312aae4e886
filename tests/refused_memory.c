/* Refuses requests for memory, so that it can be seen what a program does then. It is loaded before the C
 * library (LD_PRELOAD), whose malloc, calloc and realloc it stands in for. Requests are counted from 1:
 *
 *   REFUSE_AT=N      refuses the Nth,
 *   REFUSE_FROM=N    refuses the Nth and all that follow.
 *
 * Counted is between two marks, which a program writes to standard output in one piece each. The first is
 * swallowed. In place of the second comes a line `requests 7 bytes 900 refused 1`, where the bytes are those of
 * all requests. Where REFUSE_REPORT names a file,
 * all requests of the process are counted, and the line goes into that file as the process ends.
 */
#define _GNU_SOURCE
#include <errno.h>
#include <fcntl.h>
#include <stdio.h>
#include <stdlib.h>
#include <string.h>
#include <sys/syscall.h>
#include <unistd.h>

/* The C library shows its own functions under these names too. */
extern void *__libc_malloc(size_t size);
extern void *__libc_calloc(size_t count, size_t size);
extern void *__libc_realloc(void *place, size_t size);

static int counting;
static unsigned long requests, bytes, refused, at, from;

/* Counts a request for so many bytes, and says whether it is refused. */
static int refuses(size_t size)
{
    if (!counting)
        return 0;
    requests++;
    bytes += size;
    if (requests != at && (from == 0 || requests < from))
        return 0;
    refused++;
    errno = ENOMEM;
    return 1;
}

void *malloc(size_t size)
{
    return refuses(size) ? NULL : __libc_malloc(size);
}

void *calloc(size_t count, size_t size)
{
    return refuses(count * size) ? NULL : __libc_calloc(count, size);
}

void *realloc(void *place, size_t size)
{
    return refuses(size) ? NULL : __libc_realloc(place, size);
}

static unsigned long number_in(const char *name)
{
    const char *text = getenv(name);
    return text ? strtoul(text, NULL, 10) : 0;
}

static void report(int file)
{
    char line[96];
    int length = snprintf(line, sizeof line, "requests %lu bytes %lu refused %lu\n", requests, bytes, refused);
    syscall(SYS_write, file, line, length);
}

static int is_text(const char *text, const void *written, size_t size)
{
    return size == strlen(text) && memcmp(text, written, size) == 0;
}

ssize_t write(int file, const void *written, size_t size)
{
    if (is_text("memory: begin\n", written, size)) {
        requests = bytes = refused = 0;
        counting = 1;
        return size;
    }
    if (is_text("memory: end\n", written, size)) {
        counting = 0;
        report(file);
        return size;
    }
    return syscall(SYS_write, file, written, size);
}

__attribute__((constructor)) static void begin(void)
{
    at = number_in("REFUSE_AT");
    from = number_in("REFUSE_FROM");
    counting = getenv("REFUSE_REPORT") != NULL;
}

__attribute__((destructor)) static void end(void)
{
    const char *path = getenv("REFUSE_REPORT");
    counting = 0;
    int file = path ? open(path, O_WRONLY | O_CREAT | O_TRUNC, 0600) : -1;
    if (file >= 0)
        report(file);
}
