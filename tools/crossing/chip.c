/* What a program on a Cortex-M has below it without a system: from reset to main, faults, and atomic words. Files, the words of the command
 * line and the end are those of semihosting, which an emulator or a probe answers. */
#include <errno.h>
#include <stddef.h>
#include <stdint.h>
#include <stdlib.h>

enum { ROOM = 1024, WORDS = 16, COMMAND_LINE = 0x15, END = 0x20, ENDED = 0x20026, FAULT = 98 };

extern uint32_t chip_stack_top, chip_data, chip_data_end, chip_data_kept, chip_bss, chip_bss_end;
extern char chip_heap[], chip_heap_end[];
extern void (*const chip_starts[])(int, char **, char **), (*const chip_starts_end[])(int, char **, char **);
int main(int count, char **words);
void initialise_monitor_handles(void);

static uint32_t asks(uint32_t what, void *with) {
    register uint32_t r0 __asm__("r0") = what;
    register void *r1 __asm__("r1") = with;
    __asm__ volatile("bkpt 0xab" : "+r"(r0) : "r"(r1) : "memory");
    return r0;
}

static void ended(uint32_t status) {
    uint32_t told[2] = {ENDED, status};
    for (;;) asks(END, told);
}

static void fault(void) { ended(FAULT); }

/* Splits the command line at each space, so a word may be empty. */
static int words_of(char *line, char **words) {
    int count = 0;
    for (char *at = line; count < WORDS; at++) {
        words[count++] = at;
        while (*at != ' ' && *at != '\0') at++;
        if (*at == '\0') break;
        *at = '\0';
    }
    return count;
}

static void reset(void) {
    static char line[ROOM], *words[WORDS + 1];
    struct { char *text; uint32_t room; } told = {line, ROOM};
    uint32_t *from = &chip_data_kept;
    for (uint32_t *to = &chip_data; to < &chip_data_end; to++) *to = *from++;
    for (uint32_t *to = &chip_bss; to < &chip_bss_end; to++) *to = 0;
    initialise_monitor_handles();
    if (asks(COMMAND_LINE, &told) != 0) ended(FAULT);
    int count = words_of(line, words);
    for (void (*const *it)(int, char **, char **) = chip_starts; it < chip_starts_end; it++) (*it)(count, words, NULL);
    exit(main(count, words));
}

/* More room for the C library's heap, which ends where memory does. */
void *_sbrk(ptrdiff_t more) {
    static char *last = chip_heap;
    if (more > chip_heap_end - last) {
        errno = ENOMEM;
        return (void *)-1;
    }
    last += more;
    return last - more;
}

void _exit(int status) { ended((uint32_t)status); }
void _init(void) {}
void _fini(void) {}

__attribute__((section(".vectors"), used)) static void *const vectors[16] = {
    &chip_stack_top, reset, fault, fault, fault, fault, fault, 0, 0, 0, 0, fault, fault, 0, fault, fault};
