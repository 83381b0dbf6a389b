/* malloc and realloc of which one answers that there is no memory: the call whose number, from 1, stands in the
   environment as REFUSED_CALL. When that call comes, the file that REFUSED_FILE names is made. To be loaded before
   the C library, by LD_PRELOAD. */
#define _GNU_SOURCE
#include <fcntl.h>
#include <stdlib.h>
#include <unistd.h>

extern void *__libc_malloc(size_t);
extern void *__libc_realloc(void *, size_t);

static unsigned long calls;
static unsigned long refused;

static void begin(void) __attribute__((constructor));

static void begin(void)
{
    const char *number = getenv("REFUSED_CALL");
    calls = 0;
    refused = number ? strtoul(number, 0, 10) : 0;
}

static int is_refused(void)
{
    if (refused == 0 || ++calls != refused)
        return 0;
    const char *name = getenv("REFUSED_FILE");
    if (name)
        close(open(name, O_CREAT | O_WRONLY, 0600));
    return 1;
}

void *malloc(size_t size)
{
    return is_refused() ? 0 : __libc_malloc(size);
}

void *realloc(void *old, size_t size)
{
    return is_refused() ? 0 : __libc_realloc(old, size);
}
