/*
 * Preloaded into a program that writes a file, qemu-io or the command: it ends the process at a write that is given by its number, or
 * lets a write or a flush fail, and notes what is done to files. Counting makes every state come about each time, which a kill from
 * outside does not.
 *
 * KILL_AT_WRITE  n, counted from 1: the process kills itself at its n-th write, so that the file is left as a crash would leave it
 * KILL_KEEPING   how many bytes of that write still reach the file (0 if not given): a torn write
 * FAIL_AT_WRITE  n, counted from 1: the n-th write fails
 * FAIL_AT_FLUSH  n, counted from 1: the n-th flush fails
 * NOTE_IN        a file that gets a line for each "length BYTES", "write OFFSET BYTES" and "flush"
 * BYTES_IN       a file that gets the bytes of each write, one behind the other
 */
#define _GNU_SOURCE
#include <dlfcn.h>
#include <errno.h>
#include <signal.h>
#include <stdatomic.h>
#include <stdio.h>
#include <stdlib.h>
#include <sys/types.h>
#include <unistd.h>

typedef ssize_t (*pwrite64_t)(int, const void *, size_t, off64_t);
typedef int (*ftruncate64_t)(int, off64_t);
typedef int (*fsync_t)(int);

static atomic_ulong writes;
static atomic_ulong flushes;

static size_t number(const char *name)
{
    const char *text = getenv(name);
    return text ? strtoul(text, NULL, 10) : 0;
}

static void note(const char *format, long first, long second)
{
    const char *path = getenv("NOTE_IN");
    FILE *file = path ? fopen(path, "a") : NULL;
    if (file) {
        fprintf(file, format, first, second);
        fclose(file);
    }
}

static void keep(const void *bytes, size_t length)
{
    const char *path = getenv("BYTES_IN");
    FILE *file = path ? fopen(path, "a") : NULL;
    if (file) {
        fwrite(bytes, 1, length, file);
        fclose(file);
    }
}

static int fails(void)
{
    errno = EIO;
    return -1;
}

ssize_t pwrite64(int file, const void *bytes, size_t length, off64_t offset)
{
    pwrite64_t real = (pwrite64_t)dlsym(RTLD_NEXT, "pwrite64");
    size_t n = atomic_fetch_add(&writes, 1) + 1;
    if (n == number("KILL_AT_WRITE")) {
        size_t keeping = number("KILL_KEEPING");
        if (keeping > 0)
            real(file, bytes, keeping < length ? keeping : length, offset);
        kill(getpid(), SIGKILL);
    }
    note("write %ld %ld\n", offset, length);
    keep(bytes, length);
    return n == number("FAIL_AT_WRITE") ? fails() : real(file, bytes, length, offset);
}

int ftruncate64(int file, off64_t length)
{
    note("length %ld\n", length, 0);
    return ((ftruncate64_t)dlsym(RTLD_NEXT, "ftruncate64"))(file, length);
}

int fsync(int file)
{
    note("flush\n", 0, 0);
    if (atomic_fetch_add(&flushes, 1) + 1 == number("FAIL_AT_FLUSH"))
        return fails();
    return ((fsync_t)dlsym(RTLD_NEXT, "fsync"))(file);
}
