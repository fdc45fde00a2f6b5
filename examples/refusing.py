"""The library of refuse_memory.py, which stands before the allocator of the C library and refuses a request.

The environment says which: REFUSE_AT is its number from 1, with REFUSE_ALL every later one too. What was refused
first is told in the file REFUSE_TOLD.
"""

import os
import subprocess

from script_ends import Wrong

# Requests before its constructor ran are those of the system's loader, and are not counted.
LIBRARY = r"""
#define _GNU_SOURCE
#include <dlfcn.h>
#include <errno.h>
#include <fcntl.h>
#include <pthread.h>
#include <stdatomic.h>
#include <stdio.h>
#include <stdlib.h>
#include <string.h>
#include <unistd.h>

extern void *__libc_malloc(size_t), *__libc_calloc(size_t, size_t), *__libc_realloc(void *, size_t);
extern void *__libc_memalign(size_t, size_t);

static atomic_long asked;
static atomic_int is_told;
static long first = -1;
static int all;
static const char *told;

__attribute__((constructor)) static void begin(void)
{
    const char *at = getenv("REFUSE_AT");
    told = getenv("REFUSE_TOLD");
    all = getenv("REFUSE_ALL") != NULL;
    first = at ? atol(at) : -1;
}

/* Whether this request is refused; the first is told with its kind and size. */
static int refused(const char *kind, size_t size)
{
    char line[64];
    if (first < 0)
        return 0;
    long number = atomic_fetch_add(&asked, 1) + 1;
    if (number != first && !(all && number > first))
        return 0;
    if (!atomic_exchange(&is_told, 1)) {
        int file = open(told, O_CREAT | O_WRONLY, 0600);
        int length = snprintf(line, sizeof line, "%s of %zu", kind, size);
        if (write(file, line, length) != length)
            _exit(99);
        close(file);
    }
    errno = ENOMEM;
    return 1;
}

void *malloc(size_t size) { return refused("malloc", size) ? NULL : __libc_malloc(size); }

void *calloc(size_t count, size_t size) { return refused("calloc", count * size) ? NULL : __libc_calloc(count, size); }

void *realloc(void *block, size_t size) { return refused("realloc", size) ? NULL : __libc_realloc(block, size); }

void *memalign(size_t by, size_t size) { return refused("memalign", size) ? NULL : __libc_memalign(by, size); }

void *aligned_alloc(size_t by, size_t size) { return memalign(by, size); }

int posix_memalign(void **block, size_t by, size_t size)
{
    void *found = memalign(by, size);
    if (found)
        *block = found;
    return found ? 0 : ENOMEM;
}

int pthread_create(pthread_t *thread, const pthread_attr_t *how, void *(*body)(void *), void *argument)
{
    static int (*next)(pthread_t *, const pthread_attr_t *, void *(*)(void *), void *);
    if (!next)
        next = dlsym(RTLD_NEXT, "pthread_create");
    return refused("thread", 0) ? EAGAIN : next(thread, how, body, argument);
}
"""


def build(folder):
    """The library, made of its text."""
    source, library = os.path.join(folder, "refuse.c"), os.path.join(folder, "refuse.so")
    with open(source, "w", encoding="ascii") as file:
        file.write(LIBRARY)
    try:
        made = subprocess.run(["cc", "-O1", "-shared", "-fPIC", "-o", library, source, "-ldl", "-pthread"], capture_output=True)
    except FileNotFoundError:
        raise Wrong("cc is not on PATH") from None
    if made.returncode:
        raise Wrong(f"cc can't make the library: {made.stderr.decode('utf-8', 'replace')}")
    return library
