/* The three calls of memory of hermes_machine.h over malloc, realloc and free. */
#include <stddef.h>
#include <stdint.h>
#include <stdlib.h>

/* whether there was memory, and the block; where there was none, a pointer that leads to none and isn't NULL */
typedef struct {
    uint8_t is_there;
    void *at;
} rattle_block;

rattle_block rattle_alloc(size_t bytes, size_t align);
rattle_block rattle_realloc(void *at, size_t kept, size_t bytes, size_t align);
void rattle_dealloc(void *at);

static uint64_t none[2];

static rattle_block block_at(void *at) {
    return (rattle_block){at != NULL, at != NULL ? at : none};
}

/* A size of 0 takes a block as well. malloc aligns to 16, and no more is asked for. */
rattle_block rattle_alloc(size_t bytes, size_t align) {
    return block_at(malloc(bytes != 0 ? bytes : align));
}

rattle_block rattle_realloc(void *at, size_t kept, size_t bytes, size_t align) {
    (void)kept;
    return block_at(realloc(at, bytes != 0 ? bytes : align));
}

void rattle_dealloc(void *at) {
    free(at);
}
