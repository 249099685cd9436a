#include "input.h"

#include <stdlib.h>
#include <string.h>

#include "kepolas.h"

/* A part is made no longer than this, which passes the limit of every table. */
#define LONGEST_PART (KEPOLAS_ROLL_LIMIT + 2 * KEPOLAS_NODE_BYTES)
#define NODES_AT_ONCE 65

struct part block_of(const uint8_t *bytes, size_t length) {
    struct part block = {malloc(length), length};
    if (block.bytes == NULL) abort();
    memcpy(block.bytes, bytes, length);
    return block;
}

static size_t taken(size_t wanted, size_t *left) {
    size_t length = wanted < *left ? wanted : *left;
    *left -= length;
    return length;
}

void locate_parts(const uint8_t *data, size_t size, struct part located[PARTS]) {
    size_t left = size - HEAD_BYTES;
    const size_t wanted[PARTS] = {data[6] + 256u * data[7], data[8], data[9] + 256u * data[10], left};
    const uint8_t *at = data + HEAD_BYTES;
    for (int name = 0; name < PARTS; name++) {
        located[name] = (struct part){(uint8_t *)at, taken(wanted[name], &left)};
        at += located[name].length;
    }
}

static struct part repeated(struct part part, size_t times) {
    size_t length = part.length * (1 + times);
    if (length > LONGEST_PART) length = LONGEST_PART;
    struct part block = {malloc(length), length};
    if (block.bytes == NULL) abort();
    for (size_t at = 0; at < length; at++) block.bytes[at] = part.bytes[at % part.length];
    return block;
}

/* A roll with more nodes behind its last one. */
static struct part grown(struct part roll, size_t times) {
    size_t nodes = roll.length / KEPOLAS_NODE_BYTES;
    if (times == 0 || nodes == 0 || roll.length % KEPOLAS_NODE_BYTES != 0) return block_of(roll.bytes, roll.length);
    size_t most = LONGEST_PART / KEPOLAS_NODE_BYTES, all = nodes + NODES_AT_ONCE * times;
    if (all > most) all = nodes > most ? nodes : most;
    struct part block = {malloc(KEPOLAS_NODE_BYTES * all), KEPOLAS_NODE_BYTES * all};
    if (block.bytes == NULL) abort();
    memcpy(block.bytes, roll.bytes, roll.length);
    for (size_t at = nodes; at < all; at++) {
        uint8_t *node = block.bytes + KEPOLAS_NODE_BYTES * at;
        memcpy(node, node - KEPOLAS_NODE_BYTES, KEPOLAS_NODE_BYTES);
        if (times % 2 == 0) node[2] = (uint8_t)(at - 1), node[3] = (uint8_t)((at - 1) / 256);
    }
    return block;
}

/* The table that call 2 reads from a text; a text that it refuses is handed on as it is. */
static void read_as_text(struct part *part) {
    uint8_t table[KEPOLAS_TABLE_ROOM];
    size_t entries;
    if (kepolas_read_text(part->bytes, part->length, table, sizeof table, &entries) != 0) return;
    free(part->bytes);
    *part = block_of(table, KEPOLAS_ENTRY_BYTES * entries);
}

void split_input(const uint8_t *data, size_t size, struct input *input) {
    struct part located[PARTS];
    locate_parts(data, size, located);
    input->call = 1 + data[0] % CONTENT;
    input->room_more = (int8_t)data[1];
    input->record = data[4] + 256u * data[5];
    for (unsigned name = 0; name < PARTS; name++) {
        size_t times = name == data[3] % PARTS ? data[3] / PARTS : 0;
        input->parts[name] = name == ROLL ? grown(located[name], times) : repeated(located[name], times);
    }
    if (input->call == 2 || input->call == CONTENT) return;
    if (data[2] & 1) read_as_text(&input->parts[QUERY]);
    if (data[2] & 2) read_as_text(&input->parts[FILTERS]);
}

void free_input(struct input *input) {
    for (int name = 0; name < PARTS; name++) free(input->parts[name].bytes);
}
