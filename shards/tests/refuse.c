/* Loaded ahead of the C library (LD_PRELOAD): makes an allocation of libsweep_bptree.so fail. */
#define _GNU_SOURCE
#include <dlfcn.h>
#include <errno.h>
#include <stdlib.h>
#include <string.h>

void *__libc_malloc(size_t);
void *__libc_calloc(size_t, size_t);
void *__libc_realloc(void *, size_t);
void *__libc_memalign(size_t, size_t);

static long wanted, seen, failed;

/* From now on the nth allocation fails, counted from 1. With -n all allocations after it fail too, and
   with 0 all succeed. Returns how many have failed since the last call. */
long shards_refuse(long nth) {
    long before = failed;
    wanted = nth;
    seen = failed = 0;
    return before;
}

static int fails(void *caller) {
    Dl_info of;
    if (!wanted || !dladdr(caller, &of) || !of.dli_fname || !strstr(of.dli_fname, "libsweep_bptree")) return 0;
    seen++;
    if (wanted > 0 ? seen != wanted : seen < -wanted) return 0;
    failed++;
    return 1;
}

#define FAILS fails(__builtin_return_address(0))

void *malloc(size_t size) { return FAILS ? NULL : __libc_malloc(size); }
void *calloc(size_t n, size_t size) { return FAILS ? NULL : __libc_calloc(n, size); }
void *realloc(void *from, size_t size) { return FAILS ? NULL : __libc_realloc(from, size); }
void *aligned_alloc(size_t align, size_t size) { return FAILS ? NULL : __libc_memalign(align, size); }
int posix_memalign(void **to, size_t align, size_t size) {
    void *at = FAILS ? NULL : __libc_memalign(align, size);
    if (!at) return ENOMEM;
    *to = at;
    return 0;
}
