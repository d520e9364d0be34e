/* malloc and realloc that refuse one of a process's calls: the one whose number, from 0, REFUSED_CALL has. When it comes, a
 * byte is written to the file descriptor that REFUSAL_TOLD has. For tests/memory.py, which has a program load it first.
 */
#include <stdatomic.h>
#include <stddef.h>
#include <stdlib.h>
#include <unistd.h>

/* the C library's own */
void *__libc_malloc(size_t size);
void *__libc_realloc(void *block, size_t size);

static atomic_long calls;
static long refused = -1;
static int told = -1;

__attribute__((constructor)) static void begin(void)
{
    const char *number = getenv("REFUSED_CALL"), *descriptor = getenv("REFUSAL_TOLD");
    if (number != NULL && descriptor != NULL) {
        told = atoi(descriptor);
        refused = atol(number);
    }
}

static int is_refused(void)
{
    if (refused < 0 || atomic_fetch_add(&calls, 1) != refused)
        return 0;
    return write(told, "", 1) == 1;
}

void *malloc(size_t size)
{
    return is_refused() ? NULL : __libc_malloc(size);
}

void *realloc(void *block, size_t size)
{
    return is_refused() ? NULL : __libc_realloc(block, size);
}
