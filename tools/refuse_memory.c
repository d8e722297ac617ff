/* A library for LD_PRELOAD that refuses memory: the allocation of the number REFUSE_AT, counted from 1, and with REFUSE_EVERY=K each K-th
 * one behind it too. How many allocations were asked for stands in the first eight bytes of the file REFUSE_COUNT, which is mapped into
 * memory, so that it is there however the program ends. tools/refuse_memory compiles it and uses it. */
#define _GNU_SOURCE
#include <errno.h>
#include <fcntl.h>
#include <stdatomic.h>
#include <stdlib.h>
#include <sys/mman.h>
#include <unistd.h>

extern void *__libc_malloc(size_t);
extern void *__libc_calloc(size_t, size_t);
extern void *__libc_realloc(void *, size_t);
extern void *__libc_memalign(size_t, size_t);

static atomic_ulong without_file;
static atomic_ulong *asked = &without_file;
static unsigned long at, every;

static unsigned long number_of(const char *name)
{
    const char *text = getenv(name);
    return text ? strtoul(text, NULL, 10) : 0;
}

/* Runs before main. What is asked for before it is counted nowhere and never refused. */
__attribute__((constructor)) static void begin(void)
{
    const char *name = getenv("REFUSE_COUNT");
    int file = name ? open(name, O_RDWR) : -1;
    if (file >= 0) {
        void *place = mmap(NULL, sizeof *asked, PROT_READ | PROT_WRITE, MAP_SHARED, file, 0);
        if (place != MAP_FAILED)
            asked = place;
        close(file);
    }
    every = number_of("REFUSE_EVERY");
    at = number_of("REFUSE_AT");
}

static int is_refused(void)
{
    unsigned long number = atomic_fetch_add(asked, 1) + 1;
    int refused = at != 0 && (number == at || (every != 0 && number > at && (number - at) % every == 0));
    if (refused)
        errno = ENOMEM;
    return refused;
}

void *malloc(size_t size)
{
    return is_refused() ? NULL : __libc_malloc(size);
}

void *calloc(size_t count, size_t size)
{
    return is_refused() ? NULL : __libc_calloc(count, size);
}

void *realloc(void *old, size_t size)
{
    return is_refused() ? NULL : __libc_realloc(old, size);
}

void *aligned_alloc(size_t alignment, size_t size)
{
    return is_refused() ? NULL : __libc_memalign(alignment, size);
}

int posix_memalign(void **place, size_t alignment, size_t size)
{
    if (is_refused())
        return ENOMEM;
    *place = __libc_memalign(alignment, size);
    return *place ? 0 : ENOMEM;
}
