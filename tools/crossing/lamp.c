/* lamp IMAGE LINES [CUT]: a lamp on a chip. Its flash is an array, which stands for the chip's own: the file IMAGE has what it holds at first, and
 * is given what it holds at last. Each line of the file LINES happens to it, and its report is written to standard output. Behind CUT octets that were
 * programmed or erased the power goes, within the next one: what the library had in memory is lost, and the node is opened anew from the flash. */
#include "meshnode.h"

#include <setjmp.h>
#include <stdio.h>
#include <stdlib.h>
#include <string.h>

enum { OCTETS = 65536, SECTOR = 4096, LINE = 1300, REPORT = 8192, ERASED = 0xff, TORN = 0x55, WRONG = 1 };

static uint8_t flash[OCTETS], written[SECTOR];
static char line[LINE];
static uint8_t report[REPORT];
static struct meshnode node;
_Static_assert(sizeof node == 8, "the library's own pointer has 64 bits, also where those of C have 32");
static FILE *lines;
static jmp_buf power;
static unsigned long done, cut = (unsigned long)-1;

static _Noreturn void ends(const char *why) {
    fprintf(stderr, "lamp: %s\n", why);
    exit(WRONG);
}

static void tell(const uint8_t *text, meshnode_size size) {
    if (fwrite(text, 1, (size_t)size, stdout) != size)
        ends("standard output failed");
}

/* One octet of the flash. Where the power goes only some of its bits are changed. */
static void change(uint32_t at, uint8_t octet) {
    if (done == cut) {
        flash[at] = (flash[at] & TORN) | (octet & ~TORN);
        longjmp(power, 1);
    }
    flash[at] = octet;
    done++;
}

/* Makes one write of the node durable: an erase of a sector, or one that clears bits alone, as a flash can. */
static void store(uint32_t at, meshnode_size size, bool erased) {
    if (erased && (size != SECTOR || at % SECTOR != 0))
        ends("an erase is of no sector");
    for (meshnode_size i = 0; i < size; i++) {
        if (!erased && (written[i] & ~flash[at + i]) != 0)
            ends("a write sets a bit");
        change(at + (uint32_t)i, erased ? ERASED : written[i]);
    }
}

/* All writes of a call, in their order. Only behind them its report leaves. */
static void store_all(void) {
    uint32_t at, answer;
    meshnode_size size;
    bool erased = false;
    while ((answer = meshnode_node_write(&node, &at, written, sizeof written, &size, &erased)) == MESHNODE_OK)
        store(at, size, erased);
    if (answer != MESHNODE_NOTHING)
        ends("a write has no room");
}

/* What happens from when there is power: the rest of the lines. Those that say nothing to a node with one bearer are passed over. */
static void live(void) {
    meshnode_size size;
    uint32_t rule;
    if (meshnode_node_open(&node, flash, OCTETS, report, sizeof report, &size) != MESHNODE_OK)
        ends("the flash holds no node that can be run");
    store_all();
    tell(report, size);
    while (fgets(line, sizeof line, lines) != NULL) {
        uint32_t answer = meshnode_node_line(&node, (const uint8_t *)line, strcspn(line, "\n"), &rule);
        if (answer == MESHNODE_WRONG || answer == MESHNODE_NOTHING)
            continue;
        if (answer != MESHNODE_OK)
            ends("a line was refused");
        store_all();
        if (meshnode_node_report(&node, report, sizeof report, &size) != MESHNODE_OK)
            ends("a report has no room");
        tell(report, size);
    }
    if (meshnode_node_close(&node, report, sizeof report, &size) != MESHNODE_OK)
        ends("the node wasn't closed");
    tell(report, size);
}

static void with_image(const char *name, const char *how) {
    FILE *file = fopen(name, how);
    size_t count = file == NULL ? 0 : *how == 'r' ? fread(flash, 1, OCTETS, file) : fwrite(flash, 1, OCTETS, file);
    if (count != OCTETS || fclose(file) != 0)
        ends("there is no image of 65536 octets");
}

int main(int count, char **words) {
    if (count < 3 || (lines = fopen(words[2], "r")) == NULL)
        ends("lamp IMAGE LINES [CUT]");
    with_image(words[1], "rb");
    if (count > 3)
        cut = strtoul(words[3], NULL, 10);
    if (setjmp(power) != 0) {
        node = (struct meshnode){0};
        cut = (unsigned long)-1;
    }
    live();
    with_image(words[1], "wb");
    fprintf(stderr, "%lu octets\n", done);
    return 0;
}
