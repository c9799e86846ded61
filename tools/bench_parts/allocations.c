/* Counts the memory that the program has allocated into which this is loaded (LD_PRELOAD). At the front of the file
   BENCH_MEMORY stand two numbers: how many bytes it has, and the most that it had since the second was set. */

#include <fcntl.h>
#include <malloc.h>
#include <stdlib.h>
#include <sys/mman.h>

extern void *__libc_malloc(size_t);
extern void *__libc_calloc(size_t, size_t);
extern void *__libc_realloc(void *, size_t);
extern void *__libc_memalign(size_t, size_t);
extern void __libc_free(void *);

struct counted {
    long now, most;
};

static struct counted early, *counted = &early; /* what is allocated before main counts too */

__attribute__((constructor)) static void begin(void)
{
    const char *name = getenv("BENCH_MEMORY");
    int file = name != NULL ? open(name, O_RDWR) : -1;
    void *shared = mmap(NULL, sizeof early, PROT_READ | PROT_WRITE, MAP_SHARED, file, 0);
    if (shared == MAP_FAILED)
        abort();
    counted = shared;
    *counted = early;
}

static void *added(void *room)
{
    long now = __atomic_add_fetch(&counted->now, (long)malloc_usable_size(room), __ATOMIC_RELAXED);
    if (now > counted->most)
        counted->most = now;
    return room;
}

static void taken(long size)
{
    __atomic_sub_fetch(&counted->now, size, __ATOMIC_RELAXED);
}

void *malloc(size_t size)
{
    return added(__libc_malloc(size));
}

void *calloc(size_t count, size_t size)
{
    return added(__libc_calloc(count, size));
}

void *realloc(void *old, size_t size)
{
    long before = (long)malloc_usable_size(old);
    void *room = __libc_realloc(old, size);
    if (room == NULL && size > 0)
        return NULL; /* the old one stays */
    added(room);
    taken(before);
    return room;
}

void *memalign(size_t alignment, size_t size)
{
    return added(__libc_memalign(alignment, size));
}

void *aligned_alloc(size_t alignment, size_t size)
{
    return memalign(alignment, size);
}

int posix_memalign(void **room, size_t alignment, size_t size)
{
    *room = memalign(alignment, size);
    return *room == NULL ? 12 /* ENOMEM */ : 0;
}

void free(void *room)
{
    taken((long)malloc_usable_size(room));
    __libc_free(room);
}
