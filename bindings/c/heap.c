/* The heap of the proved library: three symbols over malloc. An engine with a heap of its own links its own three in
 * place of these. `ok` tells whether there was memory; `at` is never NULL, and `align` at most that of malloc. */
#include <stdbool.h>
#include <stdlib.h>

struct tried {
    bool ok;
    void *at;
};

struct tried rattle_alloc(size_t size, size_t align);
struct tried rattle_realloc(void *at, size_t kept, size_t size, size_t align);
void rattle_dealloc(void *at);

static struct tried tried(void *at) {
    static char nothing;
    return (struct tried){at != NULL, at ? at : &nothing};
}

struct tried rattle_alloc(size_t size, size_t align) {
    return tried(malloc(size ? size : align));
}

struct tried rattle_realloc(void *at, size_t kept, size_t size, size_t align) {
    (void)kept;
    return tried(realloc(at, size ? size : align));
}

void rattle_dealloc(void *at) {
    free(at);
}
