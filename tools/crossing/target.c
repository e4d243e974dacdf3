/* What the toolchain's code asks of C beside the C library, where the toolchain has no archive of it for the processor.
 * An allocation answers {1, where}, or {0, a place that is read and written by nobody}. */
#include <errno.h>
#include <stddef.h>
#include <stdint.h>
#include <stdlib.h>
#include <string.h>

#if UINTPTR_MAX > UINT32_MAX
_Static_assert(_Alignof(max_align_t) >= 16, "malloc answers multiples of 16, the largest alignment that is asked for");
#else
#include <malloc.h>
#endif

struct allocation {
    uint64_t is_there;
    uint64_t place;
};

static char nothing[16] __attribute__((aligned(16)));

static struct allocation allocation_of(void *place) {
    struct allocation made = {place != NULL, (uintptr_t)(place ? place : nothing)};
    return made;
}

/* Room for so many octets, at a multiple of 16; no more than the C library can be asked for. */
static void *room_of(uint64_t size) {
    if (size > PTRDIFF_MAX) return NULL;
#if UINTPTR_MAX > UINT32_MAX
    return malloc((size_t)size);
#else
    return memalign(16, (size_t)size); /* malloc answers multiples of 8 here */
#endif
}

struct allocation rattle_alloc(uint64_t size, uint64_t alignment) { return allocation_of(room_of(size ? size : alignment)); }

struct allocation rattle_realloc(void *place, uint64_t kept, uint64_t size, uint64_t alignment) {
#if UINTPTR_MAX > UINT32_MAX
    (void)kept; /* realloc keeps what fits */
    return allocation_of(realloc(place, size ? size : alignment));
#else
    void *made = room_of(size ? size : alignment);
    if (made) {
        memcpy(made, place, (size_t)(kept < size ? kept : size));
        free(place);
    }
    return allocation_of(made);
#endif
}

void rattle_dealloc(void *place) { free(place); }

static uint64_t word_count;
static char **words;

static void keep_words(int count, char **given, char **environment) {
    (void)environment;
    word_count = (uint64_t)count;
    words = given;
}

__attribute__((section(".init_array"), used)) static void (*const keeping)(int, char **, char **) = keep_words;

/* Copies a word of the command line, and answers its length: -1 where there is none, -2 where it has no room. */
int64_t rattle_arg(uint64_t number, uint8_t *to, uint64_t room) {
    if (number >= word_count || !words[number]) return -1;
    uint64_t length = 0;
    for (; words[number][length]; length++) {
        if (length == room) return -2;
        to[length] = (uint8_t)words[number][length];
    }
    return (int64_t)length;
}

int rattle_errno(void) { return errno; }

void rattle_set_errno(int number) { errno = number; }
