/* example FILE: a node whose state is in FILE, as `meshnoded init` makes it. Each line of standard input is an event, and what became of it is
 * written to standard output, as `meshnoded run FILE --hex` does. It ends with the numbers of meshnoded (docs/FORMATS.md). */
#define _GNU_SOURCE
#include "meshnode.h"

#include <fcntl.h>
#include <stdio.h>
#include <stdlib.h>
#include <string.h>
#include <sys/file.h>
#include <sys/stat.h>
#include <unistd.h>

enum { OCTETS = 65536, WRITE_FAULT = 5, NO_MEMORY = 6, CUT = 12, WAS_RESET = 14, NO_FILE = 16 };

static uint8_t octets[OCTETS];
static struct meshnode node;
static int file;

static _Noreturn void ends(int status, const char *why) {
    fprintf(stderr, "example: %s\n", why);
    exit(status);
}

static void tell(const void *text, meshnode_size size) {
    if (fwrite(text, 1, size, stdout) != size || fflush(stdout) != 0)
        ends(WRITE_FAULT, "standard output failed");
}

/* One write of the node, durable before the next one is begun: so a cut between two of them is one that the node knows. */
static void store(uint32_t at, meshnode_size size) {
    ssize_t count = 1;
    for (meshnode_size done = 0; done < size && count > 0; done += (meshnode_size)count)
        count = pwrite(file, octets + done, size - done, (off_t)(at + done));
    if (count <= 0 || fdatasync(file) != 0)
        ends(CUT, "the file refused a write");
}

/* All that a call wrote, in its order. Only behind it leaves what the call handed out. */
static void store_all(void) {
    uint32_t at, answer;
    meshnode_size size;
    for (bool erased = false; (answer = meshnode_node_write(&node, &at, octets, OCTETS, &size, &erased)) == MESHNODE_OK; store(at, size))
        if (erased)
            memset(octets, 0xff, size);
    if (answer != MESHNODE_NOTHING)
        ends(CUT, "a write couldn't be taken");
}

/* What became of a line, in a buffer that grows where it must. */
static void report(void) {
    static uint8_t first[4096], *text = first;
    static meshnode_size room = sizeof first;
    meshnode_size size = 0;
    while (meshnode_node_report(&node, text, room, &size) == MESHNODE_LENGTH)
        if ((text = realloc(text == first ? NULL : text, room = size)) == NULL)
            ends(NO_MEMORY, "out of memory");
    tell(text, size);
}

/* The file's octets, durable as they are read: what a killed process wrote may not have reached the disk. */
static void open_file(const char *name) {
    struct stat told;
    file = open(name, O_RDWR | O_CLOEXEC | O_NOFOLLOW);
    if (file < 0 || flock(file, LOCK_EX | LOCK_NB) != 0 || fstat(file, &told) != 0 || told.st_size != OCTETS || fsync(file) != 0
        || pread(file, octets, OCTETS, 0) != OCTETS)
        ends(NO_FILE, "this is no file of 65536 octets, or another process has it");
}

int main(int count, char **words) {
    uint8_t text[64];
    char *line = NULL;
    size_t room = 0;
    meshnode_size size;
    uint32_t rule;
    open_file(count == 2 ? words[1] : "");
    switch (meshnode_node_open(&node, octets, OCTETS, text, sizeof text, &size)) {
    case MESHNODE_OK: break;
    case MESHNODE_WAS_RESET: tell("life 1 wasreset\n", 16); ends(WAS_RESET, "the node was reset");
    case MESHNODE_MEMORY: ends(NO_MEMORY, "out of memory");
    default: ends(NO_FILE, "the file holds no node");
    }
    store_all();
    tell(text, size);
    ssize_t length;
    for (unsigned long number = 1; (length = getline(&line, &room, stdin)) > 0 && line[length - 1] == '\n'; number++) {
        uint32_t answer = meshnode_node_line(&node, (const uint8_t *)line, (meshnode_size)length - 1, &rule);
        if (answer == MESHNODE_WRONG)
            fprintf(stderr, "line %lu: rule %u\n", number, rule);
        else if (answer != MESHNODE_OK && answer != MESHNODE_NOTHING)
            ends(NO_MEMORY, "out of memory");
        store_all();
        report();
    }
    if (meshnode_node_close(&node, text, sizeof text, &size) == MESHNODE_OK)
        tell(text, size);
    free(line);
    return 0;
}
