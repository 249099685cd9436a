/* How the fuzzer's bytes are split into what a call takes.
 *
 * A head of 11 bytes, and behind it the parts, one behind the other:
 *
 *     0      which call: 1 and the remainder by 9; printing is 8, the check of content 9
 *     1      room: so many bytes more than the call asks for, read as a signed number
 *     2      weight 1: the query part is a text, which call 2 reads first; weight 2: so is the filter part
 *     3      the remainder by 4 says which part is made longer, the quotient q by how much, for tables at their limits from short inputs:
 *            a roll by 65 q nodes behind its last one, as siblings of it or, for even q, as a chain below it; others are repeated q times
 *     4, 5   the record asked of call 7
 *     6, 7   bytes of the roll part
 *     8      bytes of the annotation part
 *     9, 10  bytes of the filter part; what is left is the query part, which is the text of call 2 too
 *
 * The check of content has its list in the filter part, and its rule entries in the query part. */
#ifndef FUZZ_INPUT_H
#define FUZZ_INPUT_H

#include <stddef.h>
#include <stdint.h>

#define PRINTING 8
#define CONTENT 9
#define HEAD_BYTES 11
#define PARTS 4
enum part_name { ROLL, ANNOTATION, FILTERS, QUERY };

/* Bytes in a block of their own, as long as they are, so that the address sanitizer sees each byte read or written outside of them. */
struct part {
    uint8_t *bytes;
    size_t length;
};

struct input {
    unsigned call;
    int room_more;
    size_t record;
    struct part parts[PARTS];
};

/* Where the parts lie in the fuzzer's bytes. */
void locate_parts(const uint8_t *data, size_t size, struct part located[PARTS]);

void split_input(const uint8_t *data, size_t size, struct input *input);
void free_input(struct input *input);
struct part block_of(const uint8_t *bytes, size_t length);

#endif
