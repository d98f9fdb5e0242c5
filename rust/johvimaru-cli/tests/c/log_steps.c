/*
 * Stands before the C library's calls that change a file, and writes a line for each of them to the file that
 * the variable LOG names: what was called, how many bytes, and from where on. Loaded by tests/forgetting.rs.
 */
#define _GNU_SOURCE
#include <dlfcn.h>
#include <fcntl.h>
#include <stdio.h>
#include <stdlib.h>
#include <sys/types.h>
#include <unistd.h>

static void note(const char *name, long bytes, long start)
{
    FILE *log = fopen(getenv("LOG"), "a");
    if (log) {
        fprintf(log, "%s %ld %ld\n", name, bytes, start);
        fclose(log);
    }
}

ssize_t pwrite64(int file, const void *bytes, size_t length, off64_t start)
{
    ssize_t (*next)(int, const void *, size_t, off64_t);
    *(void **)&next = dlsym(RTLD_NEXT, "pwrite64");
    note("write", (long)length, (long)start);
    return next(file, bytes, length, start);
}

int fdatasync(int file)
{
    int (*next)(int);
    *(void **)&next = dlsym(RTLD_NEXT, "fdatasync");
    note("sync", 0, 0);
    return next(file);
}

int rename(const char *from, const char *to)
{
    int (*next)(const char *, const char *);
    *(void **)&next = dlsym(RTLD_NEXT, "rename");
    note("rename", 0, 0);
    return next(from, to);
}
