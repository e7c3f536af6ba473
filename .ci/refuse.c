/* A shared library that refuses one request for memory of the program under which it is preloaded: the one whose number
 * is in REFUSE. Requests are counted from the start of `main`, so those of the C library before it are not among them.
 * With REFUSE=0 nothing is refused, and the number of all requests is written to standard error at the end. */
#define _GNU_SOURCE
#include <dlfcn.h>
#include <errno.h>
#include <stdatomic.h>
#include <stdio.h>
#include <stdlib.h>

extern void *__libc_malloc(size_t), *__libc_calloc(size_t, size_t), *__libc_realloc(void *, size_t);
extern void *__libc_memalign(size_t, size_t);

static atomic_ulong made;
static unsigned long refused;
static int (*program)(int, char **, char **);
static atomic_int counts;

/* Whether this request is refused. */
static int refuse(void) {
    return atomic_load(&counts) && atomic_fetch_add(&made, 1) + 1 == refused && (errno = ENOMEM);
}

void *malloc(size_t size) { return refuse() ? NULL : __libc_malloc(size); }
void *calloc(size_t count, size_t size) { return refuse() ? NULL : __libc_calloc(count, size); }
void *realloc(void *old, size_t size) { return size && refuse() ? NULL : __libc_realloc(old, size); }
void *memalign(size_t align, size_t size) { return refuse() ? NULL : __libc_memalign(align, size); }
void *aligned_alloc(size_t align, size_t size) { return memalign(align, size); }

int posix_memalign(void **found, size_t align, size_t size) {
    void *memory = memalign(align, size);
    if (memory)
        *found = memory;
    return memory ? 0 : ENOMEM;
}

static int counted_main(int count, char **arguments, char **environment) {
    const char *wanted = getenv("REFUSE");
    refused = wanted ? strtoul(wanted, NULL, 10) : 0;
    atomic_store(&counts, 1);
    return program(count, arguments, environment);
}

int __libc_start_main(int (*main)(int, char **, char **), int count, char **arguments, void (*init)(void),
                      void (*fini)(void), void (*end)(void), void *stack) {
    int (*start)() = dlsym(RTLD_NEXT, "__libc_start_main");
    program = main;
    return start(counted_main, count, arguments, init, fini, end, stack);
}

__attribute__((destructor)) static void tell(void) {
    atomic_store(&counts, 0);
    if (!refused)
        fprintf(stderr, "%lu\n", atomic_load(&made));
}
