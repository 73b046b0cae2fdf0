/* Loaded before a program: refuses its growth number REFUSED_GROWTH, counted from 1, and counts its growths in the first
   eight bytes of the file GROWTHS_FILE. */
#include "c_library.h"

void *__libc_malloc(size_t);
void *__libc_calloc(size_t, size_t);
void *__libc_realloc(void *, size_t);
void *__libc_memalign(size_t, size_t);

static long unseen;
static long *asked = &unseen;
static long refused = -1;

__attribute__((constructor)) static void begin(void) {
    int file = open(getenv("GROWTHS_FILE"), O_RDWR);
    void *page = mmap(NULL, sizeof *asked, PROT_READ | PROT_WRITE, MAP_SHARED, file, 0);
    if (page == MAP_FAILED) abort();
    asked = page;
    refused = atol(getenv("REFUSED_GROWTH"));
}

static int is_refused(void) {
    if (__atomic_add_fetch(asked, 1, __ATOMIC_SEQ_CST) != refused) return 0;
    errno = ENOMEM;
    return 1;
}

void *malloc(size_t size) { return is_refused() ? NULL : __libc_malloc(size); }
void *calloc(size_t count, size_t size) { return is_refused() ? NULL : __libc_calloc(count, size); }
void *realloc(void *old, size_t size) { return is_refused() ? NULL : __libc_realloc(old, size); }
void *aligned_alloc(size_t align, size_t size) { return is_refused() ? NULL : __libc_memalign(align, size); }

int posix_memalign(void **to, size_t align, size_t size) {
    if (is_refused()) return ENOMEM;
    *to = __libc_memalign(align, size);
    return *to ? 0 : ENOMEM;
}
