/* Linked with lamp.c for the board mps2-an386, in front of the calls of a node and of the heap (`--wrap`). On standard error it tells of each call how
 * many instructions it took, how deep its stack went, and how many octets of the heap were held at once; at the end of the heap the largest block, and
 * what is held still. */
#include "meshnode.h"

#include <stdio.h>
#include <stdlib.h>
#include <string.h>

enum { TICK = 40, BESIDE = 256, HEAD = 16, COUNTS = 1 };
#define PAINT 0xa5a5a5a5u

struct timer {
    volatile uint32_t control, left, from;
};
static struct timer *const timer = (struct timer *)0x40000000;

extern volatile uint32_t chip_stack[];
static volatile uint32_t *begins;
static uint32_t began;
static uint64_t held, most, largest;

/* Paints the stack below the caller from where it isn't, and looks at the clock. */
static __attribute__((noinline)) void begin(void) {
    volatile uint32_t *end = (volatile uint32_t *)__builtin_frame_address(0) - BESIDE / 4;
    if (begins == NULL) {
        begins = chip_stack;
        timer->from = timer->left = UINT32_MAX;
        timer->control = COUNTS;
    }
    while (begins < end) *begins++ = PAINT;
    most = held;
    began = timer->left;
}

/* The first word of the stack that isn't painted tells how deep it went. */
static __attribute__((noinline)) void tell(const char *name) {
    uint32_t taken = (began - timer->left) * TICK;
    char *top = __builtin_frame_address(0);
    for (begins = chip_stack; *begins == PAINT; begins++) continue;
    fprintf(stderr, "%s %lu %lu %lu\n", name, (unsigned long)taken, (unsigned long)(top - (char *)begins), (unsigned long)most);
}

#define MEASURED(name, takes, given) \
    uint32_t __real_meshnode_node_##name takes; \
    uint32_t __wrap_meshnode_node_##name takes { \
        begin(); \
        uint32_t answer = __real_meshnode_node_##name given; \
        tell(#name); \
        return answer; \
    }

MEASURED(open, (struct meshnode *node, const uint8_t *image, meshnode_size image_length, uint8_t *text, meshnode_size text_length, meshnode_size *size),
         (node, image, image_length, text, text_length, size))
MEASURED(line, (struct meshnode *node, const uint8_t *line, meshnode_size line_length, uint32_t *rule), (node, line, line_length, rule))
MEASURED(write, (struct meshnode *node, uint32_t *at, uint8_t *octets, meshnode_size octets_length, meshnode_size *size, bool *erased),
         (node, at, octets, octets_length, size, erased))
MEASURED(report, (struct meshnode *node, uint8_t *text, meshnode_size text_length, meshnode_size *size), (node, text, text_length, size))

/* A block of the heap, with its size in front of it. */
struct allocation {
    uint64_t is_there, place;
};
struct allocation __real_rattle_alloc(uint64_t size, uint64_t alignment);
struct allocation __real_rattle_realloc(void *place, uint64_t kept, uint64_t size, uint64_t alignment);
void __real_rattle_dealloc(void *place);

static uint64_t *head(void *place) { return (uint64_t *)((char *)place - HEAD); }

static struct allocation counted(struct allocation made, uint64_t size) {
    if (made.is_there) {
        held += size;
        most = held > most ? held : most;
        largest = size > largest ? size : largest;
        made.place += HEAD;
        *head((void *)(uintptr_t)made.place) = size;
    }
    return made;
}

struct allocation __wrap_rattle_alloc(uint64_t size, uint64_t alignment) { return counted(__real_rattle_alloc(size + HEAD, alignment), size); }

/* The old block is there until the new one is. */
struct allocation __wrap_rattle_realloc(void *place, uint64_t kept, uint64_t size, uint64_t alignment) {
    uint64_t old = *head(place);
    struct allocation made = counted(__real_rattle_realloc(head(place), kept + HEAD, size + HEAD, alignment), size);
    held -= made.is_there ? old : 0;
    return made;
}

void __wrap_rattle_dealloc(void *place) {
    held -= *head(place);
    __real_rattle_dealloc(head(place));
}

uint32_t __real_meshnode_node_close(struct meshnode *node, uint8_t *text, meshnode_size text_length, meshnode_size *size);
uint32_t __wrap_meshnode_node_close(struct meshnode *node, uint8_t *text, meshnode_size text_length, meshnode_size *size) {
    begin();
    uint32_t answer = __real_meshnode_node_close(node, text, text_length, size);
    tell("close");
    fprintf(stderr, "heap %lu %lu\n", (unsigned long)largest, (unsigned long)held);
    return answer;
}
