// Refuses one allocation of a library. Linked by -Wl,--wrap=malloc,--wrap=realloc, it stands between the library and the C library.
#include <stddef.h>

void *__real_malloc(size_t size);
void *__real_realloc(void *old, size_t size);
void *__wrap_malloc(size_t size);
void *__wrap_realloc(void *old, size_t size);
void refuse(long number);
long allocations(void);

static long count, refused;

// Counts allocations anew from 1, and refuses the one with this number. 0 refuses none.
void refuse(long number) {
    count = 0;
    refused = number;
}

// Returns the number of allocations since the last `refuse`.
long allocations(void) { return count; }

void *__wrap_malloc(size_t size) { return ++count == refused ? NULL : __real_malloc(size); }
void *__wrap_realloc(void *old, size_t size) { return ++count == refused ? NULL : __real_realloc(old, size); }
