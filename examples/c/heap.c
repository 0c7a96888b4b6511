/* What libaotcp_c.a takes from the heap of the C library. */
#include <stdbool.h>
#include <stdlib.h>

struct block {
    bool ok;
    void *at;
};

struct block rattle_alloc(size_t size, size_t align);
struct block rattle_realloc(void *at, size_t used, size_t size, size_t align);
void rattle_dealloc(void *at);

static char nowhere;

static struct block block_of(void *at) {
    struct block block = {at != NULL, at != NULL ? at : &nowhere};
    return block;
}

struct block rattle_alloc(size_t size, size_t align) { return block_of(malloc(size != 0 ? size : align)); }

struct block rattle_realloc(void *at, size_t used, size_t size, size_t align) {
    (void)used;
    return block_of(realloc(at, size != 0 ? size : align));
}

void rattle_dealloc(void *at) { free(at); }
