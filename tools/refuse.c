/* A library to be loaded before a program's own: it refuses allocations, and lets reads and writes fail or move less than was asked.

   REFUSE=N      refuses the Nth allocation alone
   FAIL_IO=N     lets the Nth read or write fail
   SHORT_IO=N    lets the Nth read or write of several bytes move one

   N.. in the place of N stands for the Nth and all after it, and N..M for those from the Nth to the Mth. Without a variable nothing
   is refused, fails or is cut. How many allocations there were, and how many reads and writes, is counted in the file that COUNTS
   names, in 8 bytes each. */
#define _GNU_SOURCE
#include <errno.h>
#include <fcntl.h>
#include <limits.h>
#include <stdatomic.h>
#include <stddef.h>
#include <stdlib.h>
#include <string.h>
#include <sys/mman.h>
#include <sys/syscall.h>
#include <unistd.h>

extern void *__libc_malloc(size_t size);
extern void *__libc_calloc(size_t count, size_t size);
extern void *__libc_realloc(void *block, size_t size);
extern void *__libc_memalign(size_t alignment, size_t size);

struct range {
    unsigned long first;
    unsigned long last;
};

struct counts {
    atomic_ulong allocations;
    atomic_ulong moves;
};

static struct counts own;
static struct counts *counts = &own;
static struct range refused, failing, cut;

static int has(const struct range *range, unsigned long number) {
    return range->first && range->first <= number && number <= range->last;
}

static int is_refused(void) {
    if (!has(&refused, atomic_fetch_add(&counts->allocations, 1) + 1)) return 0;
    errno = ENOMEM;
    return 1;
}

void *malloc(size_t size) { return is_refused() ? NULL : __libc_malloc(size); }

void *calloc(size_t count, size_t size) { return is_refused() ? NULL : __libc_calloc(count, size); }

void *realloc(void *block, size_t size) { return is_refused() ? NULL : __libc_realloc(block, size); }

void *aligned_alloc(size_t alignment, size_t size) { return is_refused() ? NULL : __libc_memalign(alignment, size); }

int posix_memalign(void **block, size_t alignment, size_t size) {
    if (is_refused()) return ENOMEM;
    *block = __libc_memalign(alignment, size);
    return *block ? 0 : ENOMEM;
}

/* How many bytes a read or a write of so many may move: -1 where it fails. */
static ssize_t may_move(size_t size) {
    unsigned long number = atomic_fetch_add(&counts->moves, 1) + 1;
    if (has(&failing, number)) {
        errno = EIO;
        return -1;
    }
    return has(&cut, number) && size > 1 ? 1 : (ssize_t)size;
}

ssize_t read(int file, void *bytes, size_t size) {
    ssize_t most = may_move(size);
    return most < 0 ? -1 : syscall(SYS_read, file, bytes, most);
}

ssize_t write(int file, const void *bytes, size_t size) {
    ssize_t most = may_move(size);
    return most < 0 ? -1 : syscall(SYS_write, file, bytes, most);
}

static struct range range_of(const char *variable) {
    struct range range = {0, 0};
    const char *words = getenv(variable);
    if (words) {
        char *end = NULL;
        range.first = strtoul(words, &end, 10);
        range.last = range.first;
        if (strncmp(end, "..", 2) == 0) range.last = end[2] ? strtoul(end + 2, NULL, 10) : ULONG_MAX;
    }
    return range;
}

/* Counts that outlive the program, in a file. */
static struct counts *counts_in(const char *name) {
    int file = open(name, O_RDWR | O_CREAT | O_TRUNC, 0644);
    if (file < 0 || ftruncate(file, sizeof(struct counts))) _exit(126);
    void *shared = mmap(NULL, sizeof(struct counts), PROT_READ | PROT_WRITE, MAP_SHARED, file, 0);
    close(file);
    if (shared == MAP_FAILED) _exit(126);
    return shared;
}

/* What is asked for before the program begins is not counted. */
__attribute__((constructor)) static void begin(void) {
    const char *name = getenv("COUNTS");
    refused = range_of("REFUSE");
    failing = range_of("FAIL_IO");
    cut = range_of("SHORT_IO");
    if (name) counts = counts_in(name);
    atomic_store(&counts->allocations, 0);
    atomic_store(&counts->moves, 0);
}
