/* The memory of libleafnurd.a, over the C library's: link this file, or define these three functions yourself
   (leafnurd.h). */
#include "leafnurd.h"

#include <stdlib.h>

/* What a refused request points to. */
static unsigned char nothing;

static leafnurd_block block(void *at) {
    leafnurd_block answer = {at != NULL, at ? (unsigned char *)at : &nothing};
    return answer;
}

/* malloc aligns to 16 here. Of no bytes it may answer NULL, which is no refusal, so that at least one is asked for. */
leafnurd_block rattle_alloc(size_t size, size_t alignment) {
    return block(malloc(size ? size : alignment));
}

leafnurd_block rattle_realloc(unsigned char *at, size_t kept, size_t size, size_t alignment) {
    (void)kept;
    return block(realloc(at, size ? size : alignment));
}

void rattle_dealloc(unsigned char *at) {
    free(at);
}
