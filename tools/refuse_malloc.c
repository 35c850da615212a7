// Refuses memory to a C program at random, but not to its children. Linked by -Wl,--wrap=malloc,--wrap=realloc, it stands between
// the program, with the archives that it links, and the C library. It refuses one call of 64, after the first thousand. The
// environment variable SEED makes other choices.
#include <stdbool.h>
#include <stdint.h>
#include <stdlib.h>
#include <unistd.h>

void *__real_malloc(size_t size);
void *__real_realloc(void *old, size_t size);
void *__wrap_malloc(size_t size);
void *__wrap_realloc(void *old, size_t size);

enum { FIRST = 1000, SHARE = 64 };

static pid_t program;
static unsigned long calls;
static uint64_t dice;

static bool is_refused(void) {
    if (calls++ == 0) {
        const char *seed = getenv("SEED");
        program = getpid();
        dice = (strtoull(seed ? seed : "0", NULL, 10) + 1) * 0x9e3779b97f4a7c15u | 1;
    }
    dice ^= dice << 13;
    dice ^= dice >> 7;
    dice ^= dice << 17;
    return calls > FIRST && (dice >> 16) % SHARE == 0 && getpid() == program;
}

void *__wrap_malloc(size_t size) { return is_refused() ? NULL : __real_malloc(size); }
void *__wrap_realloc(void *old, size_t size) { return is_refused() ? NULL : __real_realloc(old, size); }
