// Library for a preload: refuses the allocation REFUSE, counted from 1 over `malloc` and `realloc`, and each one of at least
// REFUSE_FROM bytes. 0 refuses none. A Rattle program allocates by these two functions alone. At its end the library writes the
// number of all allocations, as a decimal, to the file descriptor REFUSE_TELL. Needs glibc.
#define _GNU_SOURCE
#include <stdio.h>
#include <stdlib.h>
#include <sys/syscall.h>
#include <unistd.h>

extern void *__libc_malloc(size_t);
extern void *__libc_realloc(void *, size_t);

static long count;

static long number_of(const char *name) {
    const char *text = getenv(name);
    return text ? atol(text) : 0;
}

static int is_refused(size_t size) {
    long number = __atomic_add_fetch(&count, 1, __ATOMIC_SEQ_CST);
    size_t from = (size_t)number_of("REFUSE_FROM");
    return number == number_of("REFUSE") || (from && size >= from);
}

void *malloc(size_t size) {
    return is_refused(size) ? NULL : __libc_malloc(size);
}

void *realloc(void *block, size_t size) {
    return is_refused(size) ? NULL : __libc_realloc(block, size);
}

static void tell(void) {
    char text[32];
    int len = snprintf(text, sizeof text, "%ld", count);
    if (write((int)number_of("REFUSE_TELL"), text, (size_t)len) != len) {
        syscall(SYS_exit_group, 3);
    }
}

__attribute__((destructor)) static void tell_at_return(void) {
    tell();
}

// A program with threads ends by this call, and runs no destructor.
__attribute__((noreturn)) void _exit(int status) {
    tell();
    for (;;) {
        syscall(SYS_exit_group, status);
    }
}
