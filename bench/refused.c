/* Refuses one allocation of the program before which it is loaded (LD_PRELOAD): the one whose
   number, counted from 1 over all threads, is in REFUSED_NUMBER. The number of allocations so far
   is kept in the file that REFUSED_COUNT names, so it is there however the program ends.
   bench/refused.py uses it. */
#include <errno.h>
#include <fcntl.h>
#include <stdatomic.h>
#include <stdlib.h>
#include <sys/mman.h>
#include <unistd.h>

/* The C library's own functions, under names that nothing here hides. */
extern void *__libc_malloc(size_t);
extern void *__libc_calloc(size_t, size_t);
extern void *__libc_realloc(void *, size_t);

static atomic_long own, refused;
static atomic_long *made = &own;

static void count_in(const char *name) {
    int file = open(name, O_RDWR);
    if (file < 0 || ftruncate(file, sizeof own)) abort();
    void *page = mmap(NULL, sizeof own, PROT_READ | PROT_WRITE, MAP_SHARED, file, 0);
    if (page == MAP_FAILED) abort();
    made = page;
    close(file);
}

__attribute__((constructor)) static void start(void) {
    const char *number = getenv("REFUSED_NUMBER"), *name = getenv("REFUSED_COUNT");
    if (name) count_in(name);
    atomic_store(made, 0);
    if (number) atomic_store(&refused, atol(number));
}

static int is_refused(void) {
    if (atomic_fetch_add(made, 1) + 1 != atomic_load(&refused)) return 0;
    errno = ENOMEM;
    return 1;
}

void *malloc(size_t size) {
    return is_refused() ? NULL : __libc_malloc(size);
}

void *calloc(size_t count, size_t size) {
    return is_refused() ? NULL : __libc_calloc(count, size);
}

void *realloc(void *old, size_t size) {
    return is_refused() ? NULL : __libc_realloc(old, size);
}
