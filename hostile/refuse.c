/* Refuses memory to a program: the Nth block that it asks for (REFUSE=N, from 1), or that one and those behind it up to the
   Mth (REFUSE=N..M) or to the end (REFUSE=N..). Once it refuses one, it makes the file that REFUSE_MET names.

   gcc -O2 -shared -fPIC -o refuse.so refuse.c; LD_PRELOAD=./refuse.so REFUSE=3 program */
#include <errno.h>
#include <fcntl.h>
#include <limits.h>
#include <stdatomic.h>
#include <stddef.h>
#include <stdlib.h>
#include <unistd.h>

void *__libc_malloc(size_t size);
void *__libc_calloc(size_t count, size_t size);
void *__libc_realloc(void *block, size_t size);
void *__libc_memalign(size_t alignment, size_t size);

static atomic_long asked;
static long first, last;
static const char *met;

__attribute__((constructor)) static void begin(void) {
    const char *wanted = getenv("REFUSE");
    if (wanted == NULL)
        return;
    char *end;
    long number = strtol(wanted, &end, 10);
    last = number;
    if (end[0] == '.' && end[1] == '.')
        last = end[2] == '\0' ? LONG_MAX : strtol(end + 2, NULL, 10);
    met = getenv("REFUSE_MET");
    atomic_store(&asked, 0);
    first = number;
}

static int refused(void) {
    long number = atomic_fetch_add(&asked, 1) + 1;
    if (first == 0 || number < first || number > last)
        return 0;
    if (number == first && met != NULL)
        close(open(met, O_WRONLY | O_CREAT, 0600));
    errno = ENOMEM;
    return 1;
}

void *malloc(size_t size) { return refused() ? NULL : __libc_malloc(size); }

void *calloc(size_t count, size_t size) { return refused() ? NULL : __libc_calloc(count, size); }

void *realloc(void *block, size_t size) { return refused() ? NULL : __libc_realloc(block, size); }

void *memalign(size_t alignment, size_t size) { return refused() ? NULL : __libc_memalign(alignment, size); }

void *aligned_alloc(size_t alignment, size_t size) { return refused() ? NULL : __libc_memalign(alignment, size); }

int posix_memalign(void **block, size_t alignment, size_t size) {
    void *found = refused() ? NULL : __libc_memalign(alignment, size);
    if (found == NULL)
        return ENOMEM;
    *block = found;
    return 0;
}
