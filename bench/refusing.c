/* Refuses one allocation of a program that it is loaded into: the one whose number, from 1 on, is REFUSED. It counts them in the first eight
   octets of the file COUNTED, since the program may end without a word to those that it loaded. */
#define _GNU_SOURCE
#include <errno.h>
#include <fcntl.h>
#include <stdatomic.h>
#include <stdlib.h>
#include <sys/mman.h>
#include <unistd.h>

static atomic_ulong *calls;
static unsigned long refused;

__attribute__((constructor)) static void begin(void) {
    const char *number = getenv("REFUSED");
    const char *path = getenv("COUNTED");
    int file = path ? open(path, O_RDWR | O_CREAT | O_TRUNC, 0600) : -1;
    void *place = MAP_FAILED;
    if (file >= 0 && ftruncate(file, sizeof *calls) == 0) {
        place = mmap(NULL, sizeof *calls, PROT_READ | PROT_WRITE, MAP_SHARED, file, 0);
    }
    refused = number ? strtoul(number, NULL, 10) : 0;
    calls = place == MAP_FAILED ? NULL : place;
}

static int is_refused(void) {
    if (!calls || ++*calls != refused) {
        return 0;
    }
    errno = ENOMEM;
    return 1;
}

void *malloc(size_t size) {
    extern void *__libc_malloc(size_t);
    return is_refused() ? NULL : __libc_malloc(size);
}

void *realloc(void *old, size_t size) {
    extern void *__libc_realloc(void *, size_t);
    return is_refused() ? NULL : __libc_realloc(old, size);
}

void *calloc(size_t count, size_t size) {
    extern void *__libc_calloc(size_t, size_t);
    return is_refused() ? NULL : __libc_calloc(count, size);
}
