/* The heap of the Rattle kit, for processors for which the kit has no object of it. Nothing here is proved: what the
   kit's sources say of each function is taken for granted. The library for C and the program are linked with it. */
#include <stdbool.h>
#include <stddef.h>
#include <stdlib.h>

/* Whether there was memory, and where it is. */
typedef struct {
    bool ok;
    void *p;
} tried;

static char nothing; /* where an answer points that has no memory: it never is NULL */

static tried answer(void *p) { return (tried){p != NULL, p ? p : &nothing}; }

/* An alignment divides 16, which is what malloc gives. No size is 0 for malloc, which may answer NULL then. */
tried rattle_alloc(size_t size, size_t alignment) { return answer(malloc(size > 0 ? size : alignment)); }

/* Where there is no memory the block is as it was. */
tried rattle_realloc(void *p, size_t kept, size_t size, size_t alignment) {
    (void)kept;
    return answer(realloc(p, size > 0 ? size : alignment));
}

void rattle_dealloc(void *p) { free(p); }
