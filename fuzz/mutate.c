/* How inputs are changed: mostly one part by itself, so that the others stay what they are; sometimes a roll grows by a node that is in
 * order, since few changes of two bytes are. */
#include <stdlib.h>
#include <string.h>

#include "input.h"
#include "kepolas.h"

size_t LLVMFuzzerMutate(uint8_t *data, size_t size, size_t max_size);
size_t LLVMFuzzerCustomMutator(uint8_t *data, size_t size, size_t max_size, unsigned seed);

static const size_t RECORDS[PARTS] = {KEPOLAS_NODE_BYTES, KEPOLAS_ANNOTATION_BYTES, KEPOLAS_ENTRY_BYTES, KEPOLAS_ENTRY_BYTES};

/* A part changed in a block that has room for more; every second time it is cut to whole records. */
static struct part changed(struct part part, enum part_name name, size_t most, unsigned seed) {
    struct part block = {malloc(most + 1), part.length};
    if (block.bytes == NULL) abort();
    memcpy(block.bytes, part.bytes, part.length);
    block.length = LLVMFuzzerMutate(block.bytes, part.length, most);
    if (seed % 2 == 0) block.length -= block.length % RECORDS[name];
    return block;
}

static size_t parent_of(const uint8_t *roll, size_t record) {
    return roll[KEPOLAS_NODE_BYTES * record + 2] + 256u * roll[KEPOLAS_NODE_BYTES * record + 3];
}

/* A roll with one node more, below its last record or below one above that. */
static struct part grown(struct part roll, size_t most, unsigned seed) {
    struct part block = {malloc(most + 1), roll.length - roll.length % KEPOLAS_NODE_BYTES};
    if (block.bytes == NULL) abort();
    memcpy(block.bytes, roll.bytes, block.length);
    size_t nodes = block.length / KEPOLAS_NODE_BYTES;
    if (nodes == 0 || block.length + KEPOLAS_NODE_BYTES > most) return block;
    size_t parent = nodes - 1;
    for (unsigned climb = seed % 4; climb > 0 && parent > 0 && parent_of(block.bytes, parent) < parent; climb--)
        parent = parent_of(block.bytes, parent);
    const uint8_t node[KEPOLAS_NODE_BYTES] = {(uint8_t)(1 + seed / 4 % 9), 0, (uint8_t)parent, (uint8_t)(parent / 256)};
    memcpy(block.bytes + block.length, node, sizeof node);
    block.length += sizeof node;
    return block;
}

static void write_lengths(uint8_t *head, const struct part parts[PARTS]) {
    head[6] = (uint8_t)parts[ROLL].length;
    head[7] = (uint8_t)(parts[ROLL].length / 256);
    head[8] = (uint8_t)parts[ANNOTATION].length;
    head[9] = (uint8_t)parts[FILTERS].length;
    head[10] = (uint8_t)(parts[FILTERS].length / 256);
}

/* The parts written behind the head, from a copy of all of them, as the changed one may push the others. */
static size_t join(uint8_t *data, const struct part parts[PARTS]) {
    struct part copies[PARTS];
    uint8_t *at = data + HEAD_BYTES;
    for (int name = 0; name < PARTS; name++) copies[name] = block_of(parts[name].bytes, parts[name].length);
    for (int name = 0; name < PARTS; name++) {
        memcpy(at, copies[name].bytes, copies[name].length);
        at += copies[name].length;
        free(copies[name].bytes);
    }
    write_lengths(data, parts);
    return (size_t)(at - data);
}

size_t LLVMFuzzerCustomMutator(uint8_t *data, size_t size, size_t max_size, unsigned seed) {
    if (size < HEAD_BYTES || seed % 8 == 0) return LLVMFuzzerMutate(data, size, max_size);
    if (seed % 8 == 1) return LLVMFuzzerMutate(data, 6, 6), size;
    struct part parts[PARTS];
    locate_parts(data, size, parts);
    enum part_name name = seed / 8 % PARTS;
    size_t most = parts[name].length + (max_size - size);
    if (name == ANNOTATION && most > 255) most = 255;
    struct part block = name == ROLL && seed % 8 < 5 ? grown(parts[name], most, seed / 64) : changed(parts[name], name, most, seed / 64);
    parts[name] = block;
    size_t joined = join(data, parts);
    free(block.bytes);
    return joined;
}
