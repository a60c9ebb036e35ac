/* A shared object, preloaded into a program: it makes one allocation of the program fail, the Nth, and
   lets all others through. REFUSE_AT is N; with 0 or without it none fails. With REFUSE_ON set to 1
   the Nth and each later one fail. REFUSE_TELL is a file descriptor to which one byte is written for
   each request. Nothing here allocates. */

#include <errno.h>
#include <stddef.h>
#include <stdlib.h>
#include <unistd.h>

extern void *__libc_malloc(size_t size);
extern void *__libc_calloc(size_t count, size_t size);
extern void *__libc_realloc(void *block, size_t size);
extern void *__libc_memalign(size_t alignment, size_t size);

static int is_started;
static int tell = -1;
static unsigned long refuse_at;
static int refuse_on;
static unsigned long requests;

/* What the C library allocates while it loads the program comes before this and is not counted. */
__attribute__((constructor)) static void start(void)
{
    const char *at = getenv("REFUSE_AT");
    const char *on = getenv("REFUSE_ON");
    const char *descriptor = getenv("REFUSE_TELL");
    refuse_at = at ? strtoul(at, NULL, 10) : 0;
    refuse_on = on && *on == '1';
    tell = descriptor ? (int)strtoul(descriptor, NULL, 10) : -1;
    is_started = 1;
}

static int is_refused(void)
{
    if (!is_started)
        return 0;
    requests++;
    if (tell >= 0 && write(tell, ".", 1) != 1)
        _exit(99);
    if (!refuse_at || requests < refuse_at || (requests > refuse_at && !refuse_on))
        return 0;
    errno = ENOMEM;
    return 1;
}

void *malloc(size_t size)
{
    return is_refused() ? NULL : __libc_malloc(size);
}

void *calloc(size_t count, size_t size)
{
    return is_refused() ? NULL : __libc_calloc(count, size);
}

void *realloc(void *block, size_t size)
{
    return is_refused() ? NULL : __libc_realloc(block, size);
}

void *memalign(size_t alignment, size_t size)
{
    return is_refused() ? NULL : __libc_memalign(alignment, size);
}

void *aligned_alloc(size_t alignment, size_t size)
{
    return memalign(alignment, size);
}

int posix_memalign(void **block, size_t alignment, size_t size)
{
    void *got = memalign(alignment, size);
    if (!got)
        return ENOMEM;
    *block = got;
    return 0;
}
