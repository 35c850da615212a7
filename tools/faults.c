// Library for LD_PRELOAD: makes a system call of a kernel's process fail. The environment variable FAULT names the call. `death`:
// the write of a Dead frame to the broker fails with ENOBUFS. `mode`: the change of a socket's mode fails with EPERM. Calls of
// brokers and tabs do not fail.
#define _GNU_SOURCE
#include <dlfcn.h>
#include <errno.h>
#include <stdio.h>
#include <stdlib.h>
#include <string.h>
#include <sys/stat.h>
#include <sys/types.h>

enum { DEATH_LEN = 8, KIND_AT = 5, DEAD = 0x23 };

static int is_wanted(const char *fault) {
    const char *wanted = getenv("FAULT");
    if (!wanted || strcmp(wanted, fault))
        return 0;
    char words[4096];
    FILE *file = fopen("/proc/self/cmdline", "r");
    if (!file)
        return 0;
    size_t count = fread(words, 1, sizeof words, file);
    fclose(file);
    return memmem(words, count, "\0kernel\0", 8) != NULL;
}

ssize_t send(int fd, const void *bytes, size_t count, int flags) {
    ssize_t (*next)(int, const void *, size_t, int) = dlsym(RTLD_NEXT, "send");
    if (count == DEATH_LEN && ((const unsigned char *)bytes)[KIND_AT] == DEAD && is_wanted("death")) {
        errno = ENOBUFS;
        return -1;
    }
    return next(fd, bytes, count, flags);
}

int chmod(const char *path, mode_t mode) {
    int (*next)(const char *, mode_t) = dlsym(RTLD_NEXT, "chmod");
    if (is_wanted("mode")) {
        errno = EPERM;
        return -1;
    }
    return next(path, mode);
}
