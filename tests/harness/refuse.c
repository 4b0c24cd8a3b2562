/* Stands before the system's allocator and refuses one request for memory: the one of the number in REFUSE, from 1 on.
   It says so by a byte to the open file of the number in TOLD. With 0 no request is refused, and there is a byte for
   each. Nothing here asks for memory itself: what is asked for before the system's own functions are known, as `dlsym`
   may, comes from a room of its own, and isn't counted. */

#define _GNU_SOURCE
#include <dlfcn.h>
#include <errno.h>
#include <stdlib.h>
#include <string.h>
#include <unistd.h>

static void *(*next_malloc)(size_t);
static void *(*next_calloc)(size_t, size_t);
static void *(*next_realloc)(void *, size_t);
static void *(*next_reallocarray)(void *, size_t, size_t);
static void *(*next_aligned_alloc)(size_t, size_t);
static void *(*next_memalign)(size_t, size_t);
static int (*next_posix_memalign)(void **, size_t, size_t);
static void (*next_free)(void *);

static unsigned long wanted, made;
static int told = -1, known;

static _Alignas(64) char room[1 << 16];
static size_t used;

static void begin(void)
{
    const char *refuse = getenv("REFUSE"), *file = getenv("TOLD");
    next_malloc = (void *(*)(size_t))dlsym(RTLD_NEXT, "malloc");
    next_calloc = (void *(*)(size_t, size_t))dlsym(RTLD_NEXT, "calloc");
    next_realloc = (void *(*)(void *, size_t))dlsym(RTLD_NEXT, "realloc");
    next_reallocarray = (void *(*)(void *, size_t, size_t))dlsym(RTLD_NEXT, "reallocarray");
    next_aligned_alloc = (void *(*)(size_t, size_t))dlsym(RTLD_NEXT, "aligned_alloc");
    next_memalign = (void *(*)(size_t, size_t))dlsym(RTLD_NEXT, "memalign");
    next_posix_memalign = (int (*)(void **, size_t, size_t))dlsym(RTLD_NEXT, "posix_memalign");
    next_free = (void (*)(void *))dlsym(RTLD_NEXT, "free");
    wanted = refuse ? strtoul(refuse, NULL, 10) : 0;
    told = file ? atoi(file) : -1;
}

/* Whether a request comes while the system's functions are looked for. */
static int is_early(void)
{
    if (known == 2)
        return 0;
    if (known == 1)
        return 1;
    known = 1;
    begin();
    known = 2;
    return 0;
}

static void *from_room(size_t size)
{
    char *given = room + used;
    size_t taken = (size + 63) / 64 * 64;
    if (taken < size || taken > sizeof room - used)
        return NULL;
    used += taken;
    return given;
}

static int is_of_room(const void *given)
{
    return (const char *)given >= room && (const char *)given < room + sizeof room;
}

/* Counts a request, and says whether it is the one that is refused. */
static int refused(void)
{
    made += 1;
    if (wanted != 0 && made != wanted)
        return 0;
    if (told >= 0 && write(told, "", 1) != 1)
        _exit(99);
    if (wanted == 0)
        return 0;
    errno = ENOMEM;
    return 1;
}

void *malloc(size_t size)
{
    if (is_early())
        return from_room(size);
    return refused() ? NULL : next_malloc(size);
}

void *calloc(size_t count, size_t size)
{
    if (is_early())
        return size && count > sizeof room / size ? NULL : from_room(count * size);
    return refused() ? NULL : next_calloc(count, size);
}

void *realloc(void *old, size_t size)
{
    void *given;
    if (!is_early() && !is_of_room(old))
        return refused() ? NULL : next_realloc(old, size);
    given = from_room(size);
    if (given && old)
        memmove(given, old, size);
    return given;
}

void *reallocarray(void *old, size_t count, size_t size)
{
    if (is_early() || is_of_room(old))
        return size && count > sizeof room / size ? NULL : realloc(old, count * size);
    return refused() ? NULL : next_reallocarray(old, count, size);
}

void *aligned_alloc(size_t alignment, size_t size)
{
    if (is_early())
        return alignment > 64 ? NULL : from_room(size);
    return refused() ? NULL : next_aligned_alloc(alignment, size);
}

void *memalign(size_t alignment, size_t size)
{
    if (is_early())
        return alignment > 64 ? NULL : from_room(size);
    return refused() ? NULL : next_memalign(alignment, size);
}

int posix_memalign(void **given, size_t alignment, size_t size)
{
    if (is_early())
        return ENOMEM;
    return refused() ? ENOMEM : next_posix_memalign(given, alignment, size);
}

void free(void *given)
{
    if (given && !is_early() && !is_of_room(given))
        next_free(given);
}
