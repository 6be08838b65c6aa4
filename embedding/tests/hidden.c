/* A program that has functions by the names of those that the library allocates by, as another library of the same toolchain has: neither calls
 * the other's. Prints '1 passed, 0 failed', or ends by a signal. */
#include "dehokuna.h"
#include <stdio.h>
#include <stdlib.h>

void *rattle_alloc(size_t size, size_t align);
void *rattle_realloc(void *block, size_t old, size_t align, size_t size);
void rattle_dealloc(void *block, size_t size, size_t align);

void *rattle_alloc(size_t size, size_t align) {
    (void)size, (void)align;
    abort();
}

void *rattle_realloc(void *block, size_t old, size_t align, size_t size) {
    (void)block, (void)old, (void)align, (void)size;
    abort();
}

void rattle_dealloc(void *block, size_t size, size_t align) {
    (void)block, (void)size, (void)align;
    abort();
}

int main(void) {
    struct dehokuna_server server = {0};
    if (!dehokuna_create(&server, DEHOKUNA_HELD)) return 2;
    bool is_set = true;
    for (uint64_t file = 0; file < 1000; file++) is_set = is_set && dehokuna_set(&server, file, 1, 0, 9, DEHOKUNA_WRITE) == DEHOKUNA_DONE;
    dehokuna_destroy(&server);
    printf("%d passed, %d failed\n", is_set, !is_set);
    return is_set ? 0 : 1;
}
