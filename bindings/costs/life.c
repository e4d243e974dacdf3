/* life SIDE IMAGE LINES OCTETS: a life over the image of a node, which is given the lines of the file LINES, each of so many octets, by the calls of C
 * (SIDE is `c`), or by those of `called_node` in Rattle (`rattle`). What a line leaves is taken behind it. It prints what came of the life. */
#include "meshnode.h"

#include <stdio.h>
#include <stdlib.h>
#include <string.h>

enum { OCTETS = 65536, ROOM = 8192, MOST = 1 << 20 };

struct came {
    uint64_t happened, writes, offsets, told;
};
uint32_t meshnode_life(const uint8_t *image, meshnode_size image_length, const uint8_t *first, meshnode_size first_length, const uint8_t *lines,
                       meshnode_size lines_length, meshnode_size octets, struct came *came);

static uint8_t image[OCTETS], lines[MOST], written[OCTETS], text[ROOM];
static struct meshnode node;
static struct came came;

/* All that a call left. */
static void take_all(void) {
    uint32_t at;
    meshnode_size size = 0;
    bool erased = false;
    while (meshnode_node_write(&node, &at, written, sizeof written, &size, &erased) == MESHNODE_OK) {
        came.writes++;
        came.offsets += at;
    }
    if (meshnode_node_report(&node, text, sizeof text, &size) == MESHNODE_OK)
        came.told += size;
}

static uint32_t life(meshnode_size length, meshnode_size octets) {
    meshnode_size size;
    uint32_t rule;
    if (meshnode_node_open(&node, image, OCTETS, text, sizeof text, &size) != MESHNODE_OK)
        return 0;
    take_all();
    for (meshnode_size at = 0; at + octets <= length; at += octets) {
        if (meshnode_node_line(&node, lines + at, octets, &rule) == MESHNODE_OK)
            came.happened++;
        take_all();
    }
    return meshnode_node_close(&node, text, sizeof text, &size) == MESHNODE_OK;
}

static size_t read_file(const char *name, uint8_t *to, size_t room) {
    FILE *file = fopen(name, "rb");
    size_t size = file == NULL ? 0 : fread(to, 1, room, file);
    if (file == NULL || fclose(file) != 0)
        exit(1);
    return size;
}

int main(int count, char **words) {
    if (count != 5 || read_file(words[2], image, OCTETS) != OCTETS)
        return 1;
    size_t length = read_file(words[3], lines, MOST), octets = strtoul(words[4], NULL, 10);
    if (octets == 0 || length < octets)
        return 1;
    uint32_t lived = strcmp(words[1], "c") == 0 ? life(length, octets)
                                                : meshnode_life(image, OCTETS, lines, octets, lines + octets, length - octets, octets, &came);
    printf("%u %llu %llu %llu %llu\n", lived, (unsigned long long)came.happened, (unsigned long long)came.writes, (unsigned long long)came.offsets,
           (unsigned long long)came.told);
    return 0;
}
