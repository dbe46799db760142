/* The heap of the module in a page. It has the three calls that the kit otherwise bases on malloc, here based on Doug Lea's
   allocator, which takes its pages from memory.grow. The page grows the memory as well, so new pages need not follow the
   last ones. dlmalloc.c is not part of this repository: tools/make_page finds it. Nothing is proved about this file. It must
   keep the contract of the kit's libc::heap: a block of the given size at a multiple of 16, or the answer that there is
   none. */
typedef unsigned long size_t;
typedef long ptrdiff_t;

enum { PAGE = 65536 };

/* New memory, in whole pages. If none is asked for, the end of the memory. */
static void *grown(ptrdiff_t bytes) {
    size_t was = __builtin_wasm_memory_grow(0, (size_t)bytes / PAGE);
    return was == (size_t)-1 ? (void *)-1 : (void *)(was * PAGE);
}

/* The allocator, without an operating system and without threads. */
#define LACKS_ERRNO_H
#define LACKS_STDLIB_H
#define LACKS_STRING_H
#define LACKS_SYS_TYPES_H
#define LACKS_TIME_H
#define LACKS_UNISTD_H
#define EINVAL 22
#define ENOMEM 12
#define ABORT __builtin_trap()
#define DLMALLOC_EXPORT static __attribute__((unused))
#define HAVE_MMAP 0
#define MALLOC_ALIGNMENT ((size_t)16)
#define MALLOC_FAILURE_ACTION
#define MORECORE grown
#define MORECORE_CANNOT_TRIM
#define MORECORE_CONTIGUOUS 0
#define NO_MALLINFO 1
#define NO_MALLOC_STATS 1
#define USE_DL_PREFIX
#define malloc_getpagesize ((size_t)PAGE)
#define memcpy __builtin_memcpy
#define memset __builtin_memset
#include "dlmalloc.c"

struct tried {
    size_t ok;
    void *at;
};

static struct tried tried(void *at) {
    static char nothing[16] __attribute__((aligned(16)));
    return (struct tried){at != 0, at != 0 ? at : nothing};
}

struct tried rattle_alloc(size_t size, size_t alignment) {
    return tried(dlmalloc(size != 0 ? size : alignment));
}

struct tried rattle_realloc(void *old, size_t kept, size_t size, size_t alignment) {
    (void)kept;
    return tried(dlrealloc(old, size != 0 ? size : alignment));
}

void rattle_dealloc(void *old) {
    dlfree(old);
}
