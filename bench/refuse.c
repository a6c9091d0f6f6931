// Refuses allocations of the program that it is loaded into (LD_PRELOAD), for refused.py.
//
// REFUSE_AT=k: the k-th allocation, from 1, is refused; with REFUSE_ON=1 each one from it on. REFUSE_COUNT=FILE: its first eight
// bytes, which must be there, say how many there were. The program that rt ci builds takes its memory from the C library, and here from the functions below. The one that
// is built unproved has a memory checker of its own inside, whose calls no library comes before: there its jumps to them are turned, and
// what the C library asks for, as for the stack of a thread, is neither counted nor refused: the checker ends the program there.
#define _GNU_SOURCE
#include <dlfcn.h>
#include <errno.h>
#include <fcntl.h>
#include <link.h>
#include <stdatomic.h>
#include <stdint.h>
#include <stdio.h>
#include <stdlib.h>
#include <string.h>
#include <sys/mman.h>
#include <unistd.h>

static atomic_ulong own_count;
static atomic_ulong *count = &own_count;
static unsigned long refuse_at;
static int refuse_on;
static uintptr_t own_from, own_to; // where the program's own calls come from, or 0 and 0 where all are meant

static void *(*real_malloc)(size_t);
static void *(*real_calloc)(size_t, size_t);
static void *(*real_realloc)(void *, size_t);
static void *(*real_aligned_alloc)(size_t, size_t);
static int (*real_posix_memalign)(void **, size_t, size_t);

// What is asked for before the C library's own calls were found is given out of this, and never taken back.
static char early[65536];
static size_t early_used;

static void *take_early(size_t size) {
    size_t from = (early_used + 15) & ~(size_t)15;
    if (from + size > sizeof early) return NULL;
    early_used = from + size;
    return early + from;
}

static int is_early(void *at) { return (char *)at >= early && (char *)at < early + sizeof early; }

// Whether this allocation, one more, is refused. It is asked for from there.
static int refuses(void *from) {
    if (own_to && ((uintptr_t)from < own_from || own_to <= (uintptr_t)from)) return 0;
    unsigned long number = atomic_fetch_add(count, 1) + 1;
    if (refuse_at == 0 || number < refuse_at || (!refuse_on && number > refuse_at)) return 0;
    errno = ENOMEM;
    return 1;
}

#define CALLER __builtin_return_address(0)

static void *our_malloc(size_t size) {
    if (!real_malloc) return take_early(size);
    return refuses(CALLER) ? NULL : real_malloc(size);
}

static void *our_calloc(size_t many, size_t size) {
    if (!real_calloc) return take_early(many * size);
    return refuses(CALLER) ? NULL : real_calloc(many, size);
}

static void *our_realloc(void *at, size_t size) {
    if (!real_realloc || is_early(at)) {
        void *to = real_malloc ? real_malloc(size) : take_early(size);
        if (to && at) memcpy(to, at, size);
        return to;
    }
    return refuses(CALLER) ? NULL : real_realloc(at, size);
}

static void *our_aligned_alloc(size_t bound, size_t size) { return refuses(CALLER) ? NULL : real_aligned_alloc(bound, size); }

static int our_posix_memalign(void **at, size_t bound, size_t size) {
    return refuses(CALLER) ? ENOMEM : real_posix_memalign(at, bound, size);
}

static struct call {
    const char *name;
    void *ours;
    void **real;
} calls[] = {
    {"malloc", our_malloc, (void **)&real_malloc},
    {"calloc", our_calloc, (void **)&real_calloc},
    {"realloc", our_realloc, (void **)&real_realloc},
    {"aligned_alloc", our_aligned_alloc, (void **)&real_aligned_alloc},
    {"posix_memalign", our_posix_memalign, (void **)&real_posix_memalign},
};
enum { CALLS = sizeof calls / sizeof *calls };

// The same under the C library's names.
#define NAMED(name) __attribute__((alias("our_" #name)))
void *malloc(size_t size) NAMED(malloc);
void *calloc(size_t many, size_t size) NAMED(calloc);
void *realloc(void *at, size_t size) NAMED(realloc);
void *aligned_alloc(size_t bound, size_t size) NAMED(aligned_alloc);
int posix_memalign(void **at, size_t bound, size_t size) NAMED(posix_memalign);

// Where the program, which is the first object, has its code.
static int find_own(struct dl_phdr_info *object, size_t size, void *unused) {
    (void)size, (void)unused;
    for (int i = 0; i < object->dlpi_phnum; i++) {
        const ElfW(Phdr) *part = &object->dlpi_phdr[i];
        if (part->p_type != PT_LOAD || !(part->p_flags & PF_X)) continue;
        own_from = object->dlpi_addr + part->p_vaddr;
        own_to = own_from + part->p_memsz;
    }
    return 1;
}

static void stop(const char *why) {
    dprintf(2, "refuse.c: %s\n", why);
    _exit(99);
}

// A page that a jump of four bytes reaches from there.
static unsigned char *page_near(uintptr_t at) {
    for (uintptr_t back = 1 << 20; back < 1u << 30; back += 1 << 20) {
        void *page = (void *)((at - back) & ~(uintptr_t)4095);
        void *got = mmap(page, 4096, PROT_READ | PROT_WRITE | PROT_EXEC, MAP_PRIVATE | MAP_ANONYMOUS | MAP_FIXED_NOREPLACE, -1, 0);
        if (got == page) return got;
        if (got != MAP_FAILED) munmap(got, 4096);
    }
    stop("there is no page near the program");
    return NULL;
}

// Turns a jump of the program to where the page leads, and keeps where it went.
static void turn(struct call *call, unsigned char *jump, unsigned char *page) {
    int32_t by;
    if (*jump != 0xe9) stop("the program's own allocation is no jump");
    memcpy(&by, jump + 1, 4);
    *call->real = jump + 5 + by;
    memcpy(page, "\xff\x25\0\0\0\0", 6); // jmp *(what stands behind it)
    memcpy(page + 6, &call->ours, 8);
    by = (int32_t)(page - (jump + 5));
    uintptr_t from = (uintptr_t)jump & ~(uintptr_t)4095;
    if (mprotect((void *)from, 8192, PROT_READ | PROT_WRITE | PROT_EXEC)) stop("the program cannot be changed");
    memcpy(jump + 1, &by, 4);
    mprotect((void *)from, 8192, PROT_READ | PROT_EXEC);
}

// Counts in the file from now on, so that the count is there however the program ends.
static void share(void) {
    const char *name = getenv("REFUSE_COUNT");
    if (!name) return;
    int file = open(name, O_RDWR);
    void *at = mmap(NULL, sizeof *count, PROT_READ | PROT_WRITE, MAP_SHARED, file, 0);
    if (at == MAP_FAILED) stop("there is no file for the count");
    close(file);
    count = at;
}

__attribute__((constructor)) static void begin(void) {
    const char *at = getenv("REFUSE_AT");
    void *first = dlsym(RTLD_DEFAULT, "malloc");
    if (first == (void *)our_malloc) {
        for (int i = 0; i < CALLS; i++) *calls[i].real = dlsym(RTLD_NEXT, calls[i].name);
    } else {
        dl_iterate_phdr(find_own, NULL);
        unsigned char *page = page_near((uintptr_t)first);
        for (int i = 0; i < CALLS; i++) turn(&calls[i], dlsym(RTLD_DEFAULT, calls[i].name), page + 16 * i);
    }
    refuse_on = getenv("REFUSE_ON") != NULL;
    share();
    atomic_store(count, 0);
    refuse_at = at ? strtoul(at, NULL, 10) : 0;
}
