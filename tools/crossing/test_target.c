/* A test for each function of target.c, run as `test_target one "" three`. The toolchain's own archives for x86-64 pass it too. */
#include <errno.h>
#include <stdint.h>
#include <stdio.h>
#include <string.h>

struct allocation {
    uint64_t is_there;
    uint8_t *place;
};
struct allocation rattle_alloc(uint64_t size, uint64_t alignment);
struct allocation rattle_realloc(void *place, uint64_t kept, uint64_t size, uint64_t alignment);
void rattle_dealloc(void *place);
int64_t rattle_arg(uint64_t number, uint8_t *to, uint64_t room);
int rattle_errno(void);
void rattle_set_errno(int number);

#define TOO_MUCH (UINT64_MAX - 64) /* malloc asks nobody for it */

static int wrong;
static void due(int holds, const char *what) {
    if (!holds) printf("target: %s\n", what);
    wrong += !holds;
}

static int is_usable(struct allocation made, uint64_t alignment) {
    return made.is_there == 1 && made.place && (uintptr_t)made.place % alignment == 0;
}

static void test_alloc(void) {
    for (uint64_t alignment = 1; alignment <= 16; alignment *= 2) {
        struct allocation none = rattle_alloc(0, alignment), some = rattle_alloc(40, alignment);
        due(is_usable(none, alignment) && is_usable(some, alignment) && none.place != some.place, "alloc: aligned, each its own");
        memset(some.place, 0xa5, 40);
        rattle_dealloc(none.place);
        rattle_dealloc(some.place);
    }
    struct allocation refused = rattle_alloc(TOO_MUCH, 8);
    due(refused.is_there == 0 && refused.place, "alloc: refused");
}

static void test_realloc(void) {
    struct allocation made = rattle_alloc(24, 8);
    for (int i = 0; i < 24; i++) made.place[i] = (uint8_t)i;
    struct allocation refused = rattle_realloc(made.place, 24, TOO_MUCH, 8);
    due(refused.is_there == 0 && refused.place && made.place[23] == 23, "realloc: refused, and what was there stays");
    made = rattle_realloc(made.place, 24, 70000, 16);
    due(is_usable(made, 16), "realloc: aligned");
    int kept = 1;
    for (int i = 0; i < 24; i++) kept = kept && made.place[i] == i;
    due(kept, "realloc: keeps what was there");
    made = rattle_realloc(made.place, 70000, 3, 1);
    due(is_usable(made, 1) && made.place[2] == 2, "realloc: keeps what fits");
    made = rattle_realloc(made.place, 3, 0, 8);
    due(is_usable(made, 8), "realloc: to nothing is a place still");
    rattle_dealloc(made.place);
}

static void test_dealloc(void) {
    int all = 1;
    for (int i = 0; i < 2000; i++) { /* more in all than there is */
        struct allocation made = rattle_alloc((uint64_t)1 << (sizeof(void *) == 4 ? 20 : 24), 16);
        all = all && made.is_there;
        if (made.is_there) rattle_dealloc(made.place);
    }
    due(all, "dealloc: gives back");
}

static void test_arg(void) {
    uint8_t room[8];
    memset(room, 'x', sizeof room);
    due(rattle_arg(0, room, 0) == -2, "arg: the program's name has no room in nothing");
    due(rattle_arg(1, room, 3) == 3 && memcmp(room, "onex", 4) == 0, "arg: copied, with no octet behind");
    due(rattle_arg(2, room, 0) == 0, "arg: an empty word needs no room");
    due(rattle_arg(3, room, 4) == -2 && rattle_arg(3, room, 5) == 5, "arg: room for all or -2");
    due(rattle_arg(4, room, 8) == -1 && rattle_arg(UINT64_MAX, room, 8) == -1, "arg: -1 behind the last");
}

static void test_errno(void) {
    errno = EAGAIN;
    due(rattle_errno() == EAGAIN, "errno: read");
}

static void test_set_errno(void) {
    rattle_set_errno(ENOSPC);
    due(errno == ENOSPC, "set_errno: written");
}

int main(void) {
    test_alloc();
    test_realloc();
    test_dealloc();
    test_arg();
    test_errno();
    test_set_errno();
    printf("target: 6 functions, %d wrong\n", wrong);
    return wrong != 0;
}
