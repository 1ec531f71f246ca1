// Refuses requests for memory, for bench/refused_memory.py: it is put before the C library by LD_PRELOAD. Counted from 1 are the
// calls of malloc, calloc, realloc, reallocarray, posix_memalign, aligned_alloc, memalign and mmap from the beginning of `main` on:
// what the C library asks for before isn't. Call number REFUSE_CALL is refused, and where REFUSE_HOW is `on` so are all behind it.
// Of the first that is refused `NAME BYTES` is written to the file REFUSE_LOG. What is refused takes no memory.
#define _GNU_SOURCE
#include <dlfcn.h>
#include <errno.h>
#include <fcntl.h>
#include <stddef.h>
#include <stdio.h>
#include <stdlib.h>
#include <string.h>
#include <sys/mman.h>
#include <sys/syscall.h>
#include <unistd.h>

void *__libc_malloc(size_t), *__libc_calloc(size_t, size_t), *__libc_realloc(void *, size_t), *__libc_memalign(size_t, size_t);

static long calls, wanted;
static int counts, goes_on;
static const char *told;

static void tell(const char *name, size_t bytes) {
    char line[64], digits[24], *digit = digits + sizeof digits;
    size_t length = strlen(name);
    do *--digit = (char)('0' + bytes % 10); while (bytes /= 10);
    memcpy(line, name, length);
    line[length++] = ' ';
    for (; digit < digits + sizeof digits; digit++) line[length++] = *digit;
    line[length++] = '\n';
    long log = syscall(SYS_openat, AT_FDCWD, told, O_WRONLY | O_CREAT | O_APPEND, 0666);
    syscall(SYS_write, log, line, length);
    syscall(SYS_close, log);
}

// Whether this call is refused.
static int is_refused(const char *name, size_t bytes) {
    if (!counts) return 0;
    calls++;
    if (calls == wanted) tell(name, bytes);
    if (calls != wanted && !(goes_on && calls > wanted)) return 0;
    errno = ENOMEM;
    return 1;
}

void *malloc(size_t bytes) { return is_refused("malloc", bytes) ? NULL : __libc_malloc(bytes); }
void *calloc(size_t count, size_t bytes) { return is_refused("calloc", count * bytes) ? NULL : __libc_calloc(count, bytes); }
void *realloc(void *block, size_t bytes) { return is_refused("realloc", bytes) ? NULL : __libc_realloc(block, bytes); }
void *memalign(size_t to, size_t bytes) { return is_refused("memalign", bytes) ? NULL : __libc_memalign(to, bytes); }
void *aligned_alloc(size_t to, size_t bytes) { return is_refused("aligned_alloc", bytes) ? NULL : __libc_memalign(to, bytes); }

void *reallocarray(void *block, size_t count, size_t bytes) {
    size_t all;
    if (__builtin_mul_overflow(count, bytes, &all)) { errno = ENOMEM; return NULL; }
    return is_refused("reallocarray", all) ? NULL : __libc_realloc(block, all);
}

int posix_memalign(void **block, size_t to, size_t bytes) {
    void *found = is_refused("posix_memalign", bytes) ? NULL : __libc_memalign(to, bytes);
    if (!found) return ENOMEM;
    *block = found;
    return 0;
}

void *mmap(void *at, size_t bytes, int protection, int flags, int file, off_t offset) {
    if (is_refused("mmap", bytes)) return MAP_FAILED;
    long found = syscall(SYS_mmap, at, bytes, protection, flags, file, offset);
    return (void *)found;
}

// The beginning of `main`.

typedef int Main(int, char **, char **);
static Main *main_of_program;

static int counted_main(int count, char **words, char **environment) {
    wanted = atol(getenv("REFUSE_CALL"));
    goes_on = strcmp(getenv("REFUSE_HOW"), "on") == 0;
    told = getenv("REFUSE_LOG");
    counts = 1;
    return main_of_program(count, words, environment);
}

typedef void Hook(void);

int __libc_start_main(Main *first, int count, char **words, Hook *init, Hook *fini, Hook *end, void *stack) {
    int (*start)(Main *, int, char **, Hook *, Hook *, Hook *, void *) = dlsym(RTLD_NEXT, "__libc_start_main");
    main_of_program = first;
    return start(counted_main, count, words, init, fini, end, stack);
}
