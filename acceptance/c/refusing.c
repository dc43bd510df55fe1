/* Refuses memory to a program that runs with this library preloaded, and counts its calls for memory.

   REFUSE_FROM, REFUSE_TO: the calls with these numbers, from 1, and all between are refused.
   REFUSE_ONE_IN, REFUSE_SEED: each call is refused by chance, one in this many; a seed always draws the same numbers.
   REFUSE_TELLS: a file of at least 16 bytes, which always has the number of calls and that of the refused ones, 8 bytes
   each.
   REFUSE_SWITCHED: if given, calls of a thread are counted and refused only while its `refuse_switch(1)` holds.

   Calls are those of malloc, realloc, calloc, aligned_alloc, posix_memalign and memalign, by the program or by the C
   library, once the program runs. Calls of several threads are numbered as they come. Nothing is refused unless
   REFUSE_TELLS is given. */

#define _GNU_SOURCE
#include <dlfcn.h>
#include <errno.h>
#include <fcntl.h>
#include <stddef.h>
#include <stdint.h>
#include <stdlib.h>
#include <sys/mman.h>
#include <unistd.h>

static uint64_t from, to, one_in, seed;
static uint64_t *told; /* the calls, and the refused ones; null until the program runs */
static __thread int looks_up;
static int is_switched;
static __thread int is_on;

static uint64_t number_of(const char *name) {
    const char *text = getenv(name);
    return text ? strtoull(text, NULL, 10) : 0;
}

static __attribute__((constructor)) void begin(void) {
    const char *path = getenv("REFUSE_TELLS");
    if (!path)
        return;
    from = number_of("REFUSE_FROM");
    to = number_of("REFUSE_TO");
    one_in = number_of("REFUSE_ONE_IN");
    seed = number_of("REFUSE_SEED");
    is_switched = getenv("REFUSE_SWITCHED") != NULL;
    int file = open(path, O_RDWR | O_CLOEXEC);
    if (file < 0)
        _exit(125);
    void *shared = mmap(NULL, 16, PROT_READ | PROT_WRITE, MAP_SHARED, file, 0);
    close(file);
    if (shared == MAP_FAILED)
        _exit(125);
    told = shared;
}

/* Calls of this thread are counted and refused from now on, or no longer. */
void refuse_switch(int on) { is_on = on; }

/* Counts from the start, and refuses the calls from one number to another; refusals by chance stay as before. */
void refuse_calls(uint64_t first, uint64_t last) {
    from = first;
    to = last;
    if (told)
        told[0] = told[1] = 0;
}

/* How many calls were refused. */
uint64_t refuse_told(void) { return told ? told[1] : 0; }

/* A number that looks random, from the seed and a call's number (splitmix64). */
static uint64_t drawn(uint64_t call) {
    uint64_t bits = (seed * 0x9e3779b97f4a7c15u) ^ (call * 0xd1342543de82ef95u);
    bits = (bits ^ (bits >> 30)) * 0xbf58476d1ce4e5b9u;
    bits = (bits ^ (bits >> 27)) * 0x94d049bb133111ebu;
    return bits ^ (bits >> 31);
}

/* Counts a call. Returns whether it is refused. */
static int refused(void) {
    if (!told || (is_switched && !is_on))
        return 0;
    uint64_t call = __atomic_add_fetch(&told[0], 1, __ATOMIC_SEQ_CST);
    if (!((from && from <= call && call <= to) || (one_in && drawn(call) % one_in == 0)))
        return 0;
    __atomic_add_fetch(&told[1], 1, __ATOMIC_SEQ_CST);
    errno = ENOMEM;
    return 1;
}

/* The function of this name in the C library. */
static void *next(const char *name) {
    looks_up = 1;
    void *found = dlsym(RTLD_NEXT, name);
    looks_up = 0;
    if (!found)
        _exit(125);
    return found;
}

#define NEXT(name, result, ...)                       \
    static result (*real)(__VA_ARGS__);               \
    if (!real)                                        \
        real = (result (*)(__VA_ARGS__))next(name)

void *malloc(size_t size) {
    if (looks_up)
        return NULL;
    NEXT("malloc", void *, size_t);
    return refused() ? NULL : real(size);
}

void *realloc(void *old, size_t size) {
    NEXT("realloc", void *, void *, size_t);
    return refused() ? NULL : real(old, size);
}

void *calloc(size_t count, size_t size) {
    /* (a look-up may ask for memory, and continues without) */
    if (looks_up)
        return NULL;
    NEXT("calloc", void *, size_t, size_t);
    return refused() ? NULL : real(count, size);
}

void *aligned_alloc(size_t alignment, size_t size) {
    NEXT("aligned_alloc", void *, size_t, size_t);
    return refused() ? NULL : real(alignment, size);
}

void *memalign(size_t alignment, size_t size) {
    NEXT("memalign", void *, size_t, size_t);
    return refused() ? NULL : real(alignment, size);
}

int posix_memalign(void **where, size_t alignment, size_t size) {
    NEXT("posix_memalign", int, void **, size_t, size_t);
    return refused() ? ENOMEM : real(where, alignment, size);
}
