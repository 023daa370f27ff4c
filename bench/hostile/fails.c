/* Preloaded: the allocation with the number FAIL_AT, counted from 1, gives NULL, and with FAIL_ON each later one too. The read with the number
   READ_AT fails, and so does the write with the number WRITE_AT. With BYTEWISE each read and each write is one of a single byte. At its end the
   program's counts of allocations, reads and writes are written to the file COUNT_TO. */
#define _GNU_SOURCE
#include <errno.h>
#include <fcntl.h>
#include <stdio.h>
#include <stdlib.h>
#include <sys/syscall.h>
#include <unistd.h>

void *__libc_malloc(size_t);
void *__libc_calloc(size_t, size_t);
void *__libc_realloc(void *, size_t);

static unsigned long count, reads, writes, fail_at, read_at, write_at;
static int is_ready, fails_on, bytewise;

static unsigned long number(const char *name)
{
    const char *at = getenv(name);
    return at ? strtoul(at, NULL, 10) : 0;
}

__attribute__((constructor)) static void begin(void)
{
    fail_at = number("FAIL_AT");
    read_at = number("READ_AT");
    write_at = number("WRITE_AT");
    fails_on = getenv("FAIL_ON") != NULL;
    bytewise = getenv("BYTEWISE") != NULL;
    is_ready = 1;
}

__attribute__((destructor)) static void end(void)
{
    is_ready = 0;
    const char *name = getenv("COUNT_TO");
    int file = name ? open(name, O_WRONLY | O_CREAT | O_TRUNC, 0600) : -1;
    if (file >= 0) {
        char text[96];
        int length = snprintf(text, sizeof text, "%lu %lu %lu\n", count, reads, writes);
        if (write(file, text, (size_t)length) < 0) _exit(99);
        close(file);
    }
}

static int fails(void)
{
    if (!is_ready) return 0;
    count++;
    return fail_at != 0 && (count == fail_at || (fails_on && count > fail_at));
}

void *malloc(size_t size) { return fails() ? NULL : __libc_malloc(size); }
void *calloc(size_t items, size_t size) { return fails() ? NULL : __libc_calloc(items, size); }
void *realloc(void *old, size_t size) { return fails() ? NULL : __libc_realloc(old, size); }

static ssize_t failed(int why)
{
    errno = why;
    return -1;
}

ssize_t read(int file, void *into, size_t size)
{
    if (is_ready && ++reads == read_at) return failed(EIO);
    return syscall(SYS_read, file, into, is_ready && bytewise && size > 1 ? 1 : size);
}

ssize_t write(int file, const void *from, size_t size)
{
    if (is_ready && ++writes == write_at) return failed(ENOSPC);
    return syscall(SYS_write, file, from, is_ready && bytewise && size > 1 ? 1 : size);
}
