/* A curator's answer from C: reads roll.rec, view.rec and filters.rec of a folder and answers one query text by calls 2 and 6.
 *
 *     bin/library
 *     cc -std=c11 -Iinclude include/example.c target/staticlib/libkepolas.a -o target/example-c
 *     target/example-c examples/worked v/v
 *
 * It prints `A`, the count and the view positions, or `R`, a refusal's number and its place. */
#include <inttypes.h>
#include <stdio.h>
#include <string.h>

#include "kepolas.h"

/* One record longer than the longest table, so that a file that is too long is refused by its length. */
struct table {
    uint8_t bytes[KEPOLAS_ROLL_LIMIT + KEPOLAS_NODE_BYTES];
    size_t length;
};

static int read_table(const char *folder, const char *name, struct table *table) {
    char path[4096];
    int length = snprintf(path, sizeof path, "%s/%s", folder, name);
    if (length < 0 || (size_t)length >= sizeof path) return 0;
    FILE *file = fopen(path, "rb");
    if (file == NULL) return 0;
    table->length = fread(table->bytes, 1, sizeof table->bytes, file);
    int good = !ferror(file);
    fclose(file);
    return good;
}

static int refused(uint64_t number, size_t place) {
    printf("R %" PRIu64 " %zu\n", number, place);
    return 1;
}

static int answered(size_t count, const uint8_t *bitmap) {
    printf("A %zu", count);
    for (size_t k = 0; k < 8 * KEPOLAS_BITMAP_ROOM; k++)
        if (bitmap[k / 8] >> (k % 8) & 1) printf(" %zu", k);
    printf("\n");
    return 0;
}

int main(int argc, char **argv) {
    static struct table roll, annotation, filters;
    uint8_t query[KEPOLAS_TABLE_ROOM], bitmap[KEPOLAS_BITMAP_ROOM];
    size_t entries, told;
    if (argc != 3) return fprintf(stderr, "usage: example-c FOLDER TEXT\n"), 2;
    if (!read_table(argv[1], "roll.rec", &roll) || !read_table(argv[1], "view.rec", &annotation) ||
        !read_table(argv[1], "filters.rec", &filters))
        return refused(KEPOLAS_FILE_UNREADABLE, 0);
    uint64_t refusal = kepolas_read_text((const uint8_t *)argv[2], strlen(argv[2]), query, sizeof query, &entries);
    if (refusal != 0) return refused(refusal, entries);
    refusal = kepolas_curators_answer(roll.bytes, roll.length, annotation.bytes, annotation.length, filters.bytes, filters.length,
                                      query, KEPOLAS_ENTRY_BYTES * entries, bitmap, sizeof bitmap, &told);
    return refusal != 0 ? refused(refusal, told) : answered(told, bitmap);
}
