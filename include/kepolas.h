/* The seven calls of Kepolas, printing and the check of a roll's content, for C and C++. `bin/library` writes the library to
 * target/staticlib/libkepolas.a. docs/MANUAL.md has all rules; what a call promises is proved (crates/kepolas_c/src/lib.rt). These
 * declarations are not, but a test holds them to that source (rust/tests/declarations.rs).
 *
 * - Bytes are handed over as a pointer and a length. The pointer must be good for its length; where the length is 0 it may be any pointer
 *   but null.
 * - What is lent for writing (room, told, start, end) must overlap nothing else that is handed over. What is only read may overlap.
 * - The library keeps no state and takes no memory but stack, so the calls are reentrant and may run in several threads at once.
 * - Any bytes and any numbers may be handed in: a call checks its inputs itself.
 * - Calls 1 to 6, printing and the check of content return 0 and write a count to told, or return a refusal's number and write its place
 *   there. A refused call changes no byte of the room.
 * - Stack, measured and not proved: call 3 takes at most about 712 KB, call 6 about 242 KB, call 4 about 180 KB, the check of content about
 *   78 KB. */
#ifndef KEPOLAS_H
#define KEPOLAS_H

#include <stddef.h>
#include <stdint.h>

#ifdef __cplusplus
extern "C" {
#endif

/* Bytes of one record. */
#define KEPOLAS_NODE_BYTES 4       /* of a roll */
#define KEPOLAS_ENTRY_BYTES 6      /* of a query table or filter table */
#define KEPOLAS_ANNOTATION_BYTES 6 /* of an annotation */
#define KEPOLAS_RULE_BYTES 6       /* of rule entries */
#define KEPOLAS_LISTED_BYTES 4     /* of their list */

/* Bytes of the longest input that is accepted. */
#define KEPOLAS_ROLL_LIMIT 16384     /* 4,096 nodes */
#define KEPOLAS_QUERY_LIMIT 1536     /* a curator's query, for calls 5 and 6 and printing: 256 entries, height 32 */
#define KEPOLAS_FILTER_LIMIT 1536    /* 256 entries, height 16 */
#define KEPOLAS_ANNOTATION_LIMIT 192 /* 32 records */
#define KEPOLAS_ANSWERED_LIMIT 6144  /* a query answered on a roll, for call 3: 1,024 entries, height 128 */
#define KEPOLAS_TEXT_LIMIT 1024      /* a query text */
#define KEPOLAS_RULE_LIMIT 1536      /* 256 rule entries, height 32 */
#define KEPOLAS_LIST_LIMIT 256       /* 64 list records */

/* Bytes of room to lend; a longer room will do. Call 4 asks for one as long as the roll. */
#define KEPOLAS_TABLE_ROOM 1536     /* call 2 */
#define KEPOLAS_BITMAP_ROOM 512     /* calls 3 and 6: node k is the bit 1 << (k % 8) of byte k / 8 */
#define KEPOLAS_REWRITTEN_ROOM 6144 /* call 5 */
#define KEPOLAS_TEXT_ROOM 1024      /* printing */

/* Why a call refuses, and what its place is; where none is named, it is 0. */
enum kepolas_reason {
    KEPOLAS_SHORT_ROOM = 1,         /* the output is shorter than the room named */
    KEPOLAS_ROLL_LENGTH = 2,        /* roll length is 0, not a multiple of 4, or above 16,384 */
    KEPOLAS_NODE_LABEL = 3,         /* label outside 1 to 64: record */
    KEPOLAS_SECOND_BYTE = 4,        /* second byte not zero: record */
    KEPOLAS_PARENT_FIELD = 5,       /* parent field breaks the rule: record */
    KEPOLAS_ANNOTATION_LENGTH = 6,  /* annotation length not a multiple of 6, or above 192 */
    KEPOLAS_FILTER_LENGTH = 7,      /* filter table length not a multiple of 6, or above 1,536 */
    KEPOLAS_ENTRY_MALFORMED = 8,    /* kind, unused field, operand's number or sort, label: entry */
    KEPOLAS_ENTRY_HEIGHT = 9,       /* entry's height above the limit of its table: entry */
    KEPOLAS_ANNOTATION_RECORD = 10, /* label outside 1 to 64, last bytes not zero, or no filter entry named: record */
    KEPOLAS_PAIR_ORDER = 11,        /* pair not above the one before: record */
    KEPOLAS_QUERY_TABLE = 12,       /* length 0, not a multiple of 6 or above its limit; or the last entry is no path: last entry */
    KEPOLAS_TEXT_LENGTH = 13,       /* text length 0 or above 1,024 */
    KEPOLAS_NOT_IN_GRAMMAR = 14,    /* text not in the grammar: the first byte that no text goes on with, or the text's length */
    KEPOLAS_TOO_MANY_OPEN = 15,     /* a bracket is opened while 32 are open: that byte */
    KEPOLAS_TABLE_TOO_LARGE = 16,   /* text in the grammar, but its table passes 256 entries or height 32 */
    KEPOLAS_FILE_UNREADABLE = 17,   /* the program alone: a file cannot be read. No call returns it */
    KEPOLAS_TEXT_TOO_LONG = 18,     /* the text to be printed is longer than 1,024 bytes */
    KEPOLAS_TWO_STARS = 19,         /* a star right behind a star: that byte */
    KEPOLAS_RULES_MALFORMED = 20,   /* length of rule entries or of their list; else entry; else list record */
    KEPOLAS_CHILDREN_FORBIDDEN = 21 /* child labels not in the language of the label's rule: record */
};

/* Call 1: checks a roll. Counts its nodes. */
uint64_t kepolas_check_roll(const uint8_t *roll, size_t roll_len, size_t *told);

/* Call 2: reads a query text into a table. Counts the entries written. */
uint64_t kepolas_read_text(const uint8_t *text, size_t text_len, uint8_t *room, size_t room_len, size_t *told);

/* Call 3: answers a query on a roll, as a bitmap of record numbers. Counts its ones. */
uint64_t kepolas_answer_on_roll(const uint8_t *roll, size_t roll_len, const uint8_t *query, size_t query_len, uint8_t *room,
                                size_t room_len, size_t *told);

/* Call 4: cuts out the view, a roll itself. Counts the nodes written. */
uint64_t kepolas_cut_view(const uint8_t *roll, size_t roll_len, const uint8_t *annotation, size_t annotation_len,
                          const uint8_t *filters, size_t filters_len, uint8_t *room, size_t room_len, size_t *told);

/* Call 5: rewrites a curator's query for call 3. Counts the entries written. */
uint64_t kepolas_rewrite(const uint8_t *annotation, size_t annotation_len, const uint8_t *filters, size_t filters_len,
                         const uint8_t *query, size_t query_len, uint8_t *room, size_t room_len, size_t *told);

/* Call 6: the curator's answer, as a bitmap of view positions. Counts its ones. */
uint64_t kepolas_curators_answer(const uint8_t *roll, size_t roll_len, const uint8_t *annotation, size_t annotation_len,
                                 const uint8_t *filters, size_t filters_len, const uint8_t *query, size_t query_len,
                                 uint8_t *room, size_t room_len, size_t *told);

/* Call 7: the run of record k, its own bytes and those of all its descendants: the bytes of the roll from start up to end, which is not
 * among them. A bad roll or a record that is not in it gives 0 and 0. */
void kepolas_run_of(const uint8_t *roll, size_t roll_len, size_t k, size_t *start, size_t *end);

/* Printing: writes a curator's query table as text, with the fewest brackets that keep its grouping and its stars apart. Counts the bytes
 * written. */
uint64_t kepolas_print_query(const uint8_t *query, size_t query_len, uint8_t *room, size_t room_len, size_t *told);

/* The check of a roll's content: every node's child labels, in order, must be in the language of the rule that the list has for its label.
 * Counts the nodes. */
uint64_t kepolas_check_content(const uint8_t *roll, size_t roll_len, const uint8_t *rules, size_t rules_len, const uint8_t *list,
                               size_t list_len, size_t *told);

#ifdef __cplusplus
}
#endif

#endif
