/* Loaded before a program (LD_PRELOAD), it counts the calls that ask for memory in the first 8 bytes of the file that
 * COUNT names, and refuses the one whose number stands in REFUSE. tests/growths.py builds it and tells what it is for.
 */
#define _GNU_SOURCE
#include <dlfcn.h>
#include <errno.h>
#include <fcntl.h>
#include <stdatomic.h>
#include <stdlib.h>
#include <sys/mman.h>

static void *(*next_malloc)(size_t);
static void *(*next_realloc)(void *, size_t);
static _Atomic unsigned long *calls;
static unsigned long refused;

static int is_refused(void)
{
    if (!calls || atomic_fetch_add(calls, 1) + 1 != refused)
        return 0;
    errno = ENOMEM;
    return 1;
}

static void find_next(void)
{
    next_malloc = dlsym(RTLD_NEXT, "malloc");
    next_realloc = dlsym(RTLD_NEXT, "realloc");
}

/* The program may end without running destructors, so the count stands in the file all the time. */
__attribute__((constructor)) static void begin(void)
{
    const char *number = getenv("REFUSE"), *path = getenv("COUNT");
    int file = path ? open(path, O_RDWR) : -1;
    find_next();
    refused = number ? strtoul(number, NULL, 10) : 0;
    if (file >= 0) {
        void *at = mmap(NULL, sizeof *calls, PROT_READ | PROT_WRITE, MAP_SHARED, file, 0);
        if (at != MAP_FAILED)
            calls = at;
    }
}

void *malloc(size_t size)
{
    if (!next_malloc)
        find_next();
    return is_refused() ? NULL : next_malloc(size);
}

void *realloc(void *old, size_t size)
{
    if (!next_realloc)
        find_next();
    return is_refused() ? NULL : next_realloc(old, size);
}
