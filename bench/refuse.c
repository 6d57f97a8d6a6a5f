// Refuses memory in a program that is started with this library before the C library's, where both are glibc's:
//
//     cc -O2 -shared -fPIC -o refuse.so refuse.c
//     LD_PRELOAD=./refuse.so REFUSE=7 PROGRAM
//
// The seventh request for memory gets none, and with REFUSE_ALL set none gets any from the seventh on. With REFUSE_TELL=FD one byte is
// written to that descriptor when the first of them is refused. Requests are counted from 1, over all threads, from the start of the
// program's own code on. With REFUSE=0 all get what they ask for.
#define _GNU_SOURCE
#include <errno.h>
#include <stdatomic.h>
#include <stddef.h>
#include <stdlib.h>
#include <unistd.h>

void *__libc_malloc(size_t size);
void *__libc_calloc(size_t count, size_t size);
void *__libc_realloc(void *block, size_t size);
void *__libc_memalign(size_t alignment, size_t size);

static atomic_ulong asked;
static unsigned long first;
static int refuses_all;
static int told = -1;

static unsigned long number_in(const char *name, unsigned long otherwise) {
    const char *text = getenv(name);
    return text ? strtoul(text, NULL, 10) : otherwise;
}

__attribute__((constructor)) static void begin(void) {
    refuses_all = getenv("REFUSE_ALL") != NULL;
    told = (int)number_in("REFUSE_TELL", (unsigned long)-1);
    first = number_in("REFUSE", 0);
}

static int is_refused(void) {
    if (first == 0) return 0;
    unsigned long number = atomic_fetch_add(&asked, 1) + 1;
    if (number < first || (number > first && !refuses_all)) return 0;
    if (number == first && told >= 0 && write(told, "!", 1) < 0) abort();
    errno = ENOMEM;
    return 1;
}

void *malloc(size_t size) { return is_refused() ? NULL : __libc_malloc(size); }

void *calloc(size_t count, size_t size) { return is_refused() ? NULL : __libc_calloc(count, size); }

void *realloc(void *block, size_t size) { return is_refused() ? NULL : __libc_realloc(block, size); }

void *memalign(size_t alignment, size_t size) { return is_refused() ? NULL : __libc_memalign(alignment, size); }

void *aligned_alloc(size_t alignment, size_t size) { return memalign(alignment, size); }

int posix_memalign(void **block, size_t alignment, size_t size) {
    void *made = memalign(alignment, size);
    if (made == NULL) return ENOMEM;
    *block = made;
    return 0;
}
