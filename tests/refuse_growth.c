/* Loaded before a program (LD_PRELOAD), refuses its k-th growth of memory, k in REFUSE_GROWTH, and all behind it where
 * REFUSE_BEHIND is set, and then makes the file that REFUSE_MARK names. Build: cc -O1 -shared -fPIC -o refuse_growth.so refuse_growth.c */
#include <errno.h>
#include <fcntl.h>
#include <stdatomic.h>
#include <stdlib.h>
#include <unistd.h>

extern void *__libc_malloc(size_t);
extern void *__libc_calloc(size_t, size_t);
extern void *__libc_realloc(void *, size_t);
extern void *__libc_memalign(size_t, size_t);

static atomic_long calls;

static int is_refused(void) {
    const char *which = getenv("REFUSE_GROWTH");
    if (!which)
        return 0;
    long call = atomic_fetch_add(&calls, 1) + 1, first = atol(which);
    if (call < first || (call > first && !getenv("REFUSE_BEHIND")))
        return 0;
    const char *mark = getenv("REFUSE_MARK");
    if (mark)
        close(open(mark, O_CREAT | O_WRONLY, 0644));
    errno = ENOMEM;
    return 1;
}

void *malloc(size_t size) { return is_refused() ? NULL : __libc_malloc(size); }

void *calloc(size_t count, size_t size) { return is_refused() ? NULL : __libc_calloc(count, size); }

void *realloc(void *block, size_t size) { return is_refused() ? NULL : __libc_realloc(block, size); }

void *aligned_alloc(size_t align, size_t size) { return is_refused() ? NULL : __libc_memalign(align, size); }

int posix_memalign(void **block, size_t align, size_t size) {
    if (is_refused())
        return ENOMEM;
    *block = __libc_memalign(align, size);
    return *block ? 0 : ENOMEM;
}
