/* Calls that break a promise, one at a time, in front of the library's own (by the linker's --wrap): each must end the run of the corpus.
 * So the checks in fuzz/calls.c can fail, and the sanitizer sees what the library reads and writes. WRONG in the environment is the number
 * of the mistake. */
#include <stdint.h>
#include <stdlib.h>
#include <string.h>

#include "kepolas.h"

static int mistake(int number) {
    const char *wrong = getenv("WRONG");
    return wrong != NULL && atoi(wrong) == number;
}

uint64_t __real_kepolas_check_roll(const uint8_t *, size_t, size_t *);
uint64_t __real_kepolas_read_text(const uint8_t *, size_t, uint8_t *, size_t, size_t *);
uint64_t __real_kepolas_answer_on_roll(const uint8_t *, size_t, const uint8_t *, size_t, uint8_t *, size_t, size_t *);
uint64_t __real_kepolas_cut_view(const uint8_t *, size_t, const uint8_t *, size_t, const uint8_t *, size_t, uint8_t *, size_t, size_t *);
uint64_t __real_kepolas_rewrite(const uint8_t *, size_t, const uint8_t *, size_t, const uint8_t *, size_t, uint8_t *, size_t, size_t *);
uint64_t __real_kepolas_curators_answer(const uint8_t *, size_t, const uint8_t *, size_t, const uint8_t *, size_t, const uint8_t *, size_t,
                                        uint8_t *, size_t, size_t *);
void __real_kepolas_run_of(const uint8_t *, size_t, size_t, size_t *, size_t *);
uint64_t __real_kepolas_print_query(const uint8_t *, size_t, uint8_t *, size_t, size_t *);

uint64_t __real_kepolas_check_content(const uint8_t *, size_t, const uint8_t *, size_t, const uint8_t *, size_t, size_t *);

/* 1: the library is told of a record behind the roll, and reads it. 2: one node too many is counted. */
uint64_t __wrap_kepolas_check_roll(const uint8_t *roll, size_t roll_len, size_t *told) {
    uint64_t refusal = __real_kepolas_check_roll(roll, mistake(1) ? roll_len + KEPOLAS_NODE_BYTES : roll_len, told);
    if (mistake(2) && refusal == 0) ++*told;
    return refusal;
}

/* 3: a refused text is written. 4: the place of a refusal is one too high. 5: the table is told one entry longer, and is no table. 17: a
 * text is refused by a number for tables. 20: a text is refused for its length, though it has none that is too short or too long. 36: two
 * stars in a row are refused at the first of them. 37: the second is refused as if it were out of place. */
uint64_t __wrap_kepolas_read_text(const uint8_t *text, size_t text_len, uint8_t *room, size_t room_len, size_t *told) {
    uint64_t refusal = __real_kepolas_read_text(text, text_len, room, room_len, told);
    if (mistake(3) && refusal != 0 && room_len > 0) room[0] ^= 1;
    if (mistake(4) && refusal != 0) ++*told;
    if (mistake(5) && refusal == 0) ++*told;
    if (mistake(20) && refusal == KEPOLAS_NOT_IN_GRAMMAR) return *told = 0, KEPOLAS_TEXT_LENGTH;
    if (mistake(36) && refusal == KEPOLAS_TWO_STARS) --*told;
    if (mistake(37) && refusal == KEPOLAS_TWO_STARS) return KEPOLAS_NOT_IN_GRAMMAR;
    return mistake(17) && refusal == KEPOLAS_NOT_IN_GRAMMAR ? KEPOLAS_ENTRY_MALFORMED : refusal;
}

/* Of calls 3 and 6 alike, 6: the count is not that of the ones. 7: a byte behind the bitmap is written. 8: a node behind the roll is
 * answered. */
static void spoil_answer(size_t roll_len, uint8_t *room, size_t room_len, size_t *told) {
    if (mistake(6)) ++*told;
    if (mistake(7) && room_len > KEPOLAS_BITMAP_ROOM) room[KEPOLAS_BITMAP_ROOM] ^= 1;
    if (mistake(8) && roll_len < 8 * KEPOLAS_NODE_BYTES) room[1] |= 1, ++*told;
}

/* 16: the library is told of more room than there is, where it refuses nothing, and writes there. 21: a bad roll is refused as if the query
 * were too long. */
uint64_t __wrap_kepolas_answer_on_roll(const uint8_t *roll, size_t roll_len, const uint8_t *query, size_t query_len, uint8_t *room,
                                       size_t room_len, size_t *told) {
    uint8_t own[KEPOLAS_BITMAP_ROOM];
    int told_of_more = mistake(16) && __real_kepolas_answer_on_roll(roll, roll_len, query, query_len, own, sizeof own, told) == 0;
    size_t said = told_of_more ? sizeof own : room_len;
    uint64_t refusal = __real_kepolas_answer_on_roll(roll, roll_len, query, query_len, room, said, told);
    if (refusal == 0) spoil_answer(roll_len, room, room_len, told);
    if (mistake(21) && refusal >= KEPOLAS_ROLL_LENGTH && refusal <= KEPOLAS_PARENT_FIELD) return *told = 0, KEPOLAS_QUERY_TABLE;
    return refusal;
}

/* 9: the last node of the view is not counted. 10: a short room is taken. 18: the root is labelled otherwise. 19: the last node is not
 * shown, though there are no records. */
uint64_t __wrap_kepolas_cut_view(const uint8_t *roll, size_t roll_len, const uint8_t *annotation, size_t annotation_len,
                                 const uint8_t *filters, size_t filters_len, uint8_t *room, size_t room_len, size_t *told) {
    size_t said = mistake(10) && room_len < roll_len ? roll_len : room_len;
    if (mistake(19) && annotation_len == 0 && roll_len > KEPOLAS_NODE_BYTES) roll_len -= KEPOLAS_NODE_BYTES;
    uint64_t refusal =
        __real_kepolas_cut_view(roll, roll_len, annotation, annotation_len, filters, filters_len, room, said, told);
    if (mistake(9) && refusal == 0) --*told;
    if (mistake(18) && refusal == 0) room[0] = (uint8_t)(1 + room[0] % 64);
    return refusal;
}

/* 11: the filter table's first entry is written over. 12: the query is handed back as it came. 22: an entry is refused in
 * the place of the one before it. */
uint64_t __wrap_kepolas_rewrite(const uint8_t *annotation, size_t annotation_len, const uint8_t *filters, size_t filters_len,
                                const uint8_t *query, size_t query_len, uint8_t *room, size_t room_len, size_t *told) {
    size_t records = mistake(12) ? 0 : annotation_len;
    uint64_t refusal = __real_kepolas_rewrite(annotation, records, filters, filters_len, query, query_len, room, room_len, told);
    if (mistake(11) && refusal == 0 && filters_len > 0) room[0] ^= 1;
    if (mistake(22) && refusal == KEPOLAS_ENTRY_MALFORMED && *told > 0) --*told;
    return refusal;
}

/* 13: the answer on the roll is given for hers. 14: an input that is only read is changed. 23: every query is refused as too long. */
uint64_t __wrap_kepolas_curators_answer(const uint8_t *roll, size_t roll_len, const uint8_t *annotation, size_t annotation_len,
                                        const uint8_t *filters, size_t filters_len, const uint8_t *query, size_t query_len,
                                        uint8_t *room, size_t room_len, size_t *told) {
    size_t records = mistake(13) ? 0 : annotation_len;
    if (mistake(14) && query_len > 0) ((uint8_t *)query)[query_len - 1] ^= 1;
    uint64_t refusal = __real_kepolas_curators_answer(roll, roll_len, annotation, records, filters, filters_len, query, query_len, room,
                                                      room_len, told);
    if (refusal == 0) spoil_answer(roll_len, room, room_len, told);
    if (mistake(23) && refusal == 0) return *told = 0, KEPOLAS_QUERY_TABLE;
    return refusal;
}

/* 15: the run is a record short. */
void __wrap_kepolas_run_of(const uint8_t *roll, size_t roll_len, size_t k, size_t *start, size_t *end) {
    __real_kepolas_run_of(roll, roll_len, k, start, end);
    if (mistake(15) && *end > 0) *end -= KEPOLAS_NODE_BYTES;
}

/* How many bytes the table has that call 2 reads a text as; none if it refuses the text. */
static size_t bytes_read_as(const uint8_t *text, size_t text_len) {
    uint8_t table[KEPOLAS_TABLE_ROOM];
    size_t entries;
    uint64_t refusal = __real_kepolas_read_text(text, text_len, table, sizeof table, &entries);
    return refusal == 0 ? KEPOLAS_ENTRY_BYTES * entries : 0;
}

static void swap(uint8_t *text, size_t text_len, uint8_t one, uint8_t other) {
    for (size_t at = 0; at < text_len; at++) text[at] = text[at] == one ? other : text[at] == other ? one : text[at];
}

/* 24: the last byte is not counted. 26: `v` is printed for every table that call 2 did not write, 35: for every one that it would refuse.
 * 27: `|` and `/` are printed for one another, for tables that it did not write. 28: `<` and `>` are, for all. 29: brackets stand around
 * the text. */
static void spoil_text(uint8_t *text, size_t *told, size_t query_len) {
    size_t read_as = bytes_read_as(text, *told);
    if (mistake(24)) --*told;
    if (mistake(read_as == 0 ? 35 : 26) && read_as != query_len) text[0] = 'v', *told = 1;
    if (mistake(27) && read_as != query_len) swap(text, *told, '/', '|');
    if (mistake(28)) swap(text, *told, '<', '>');
    if (mistake(29) && *told + 2 <= KEPOLAS_TEXT_LIMIT) {
        memmove(text + 1, text, *told);
        text[0] = '(', text[*told + 1] = ')', *told += 2;
    }
}

/* 34: a text that call 2 refuses with 16 is printed for one that is too long. */
static uint64_t print_steps(uint8_t *text, size_t *told) {
    *told = KEPOLAS_TEXT_LIMIT - 1;
    for (size_t at = 0; at < *told; at++) text[at] = at % 2 == 0 ? 'v' : '/';
    return 0;
}

/* 25: a byte behind the text is written. 30: a room is written where the query is refused. 31: an entry that is too high is refused in the
 * place of the one before it. 32: more than 20 bytes are too many for a table that call 2 did not write, 33: for one that it wrote. */
uint64_t __wrap_kepolas_print_query(const uint8_t *query, size_t query_len, uint8_t *room, size_t room_len, size_t *told) {
    uint8_t text[KEPOLAS_TEXT_ROOM];
    uint64_t refusal = __real_kepolas_print_query(query, query_len, text, room_len < sizeof text ? room_len : sizeof text, told);
    if (mistake(34) && refusal == KEPOLAS_TEXT_TOO_LONG) refusal = print_steps(text, told);
    if (mistake(30) && refusal != 0 && room_len > 0) room[0] ^= 1;
    if (mistake(31) && refusal == KEPOLAS_ENTRY_HEIGHT) --*told;
    if (refusal != 0) return refusal;
    int by_reader = bytes_read_as(text, *told) == query_len;
    if (mistake(by_reader ? 33 : 32) && *told > 20) return *told = 0, KEPOLAS_TEXT_TOO_LONG;
    spoil_text(text, told, query_len);
    memcpy(room, text, *told);
    if (mistake(25) && *told < room_len) room[*told] ^= 1;
    return 0;
}

static int listed(const uint8_t *list, size_t list_len, uint8_t label) {
    for (size_t at = 0; at + KEPOLAS_LISTED_BYTES <= list_len; at += KEPOLAS_LISTED_BYTES)
        if (list[at] == label) return 1;
    return 0;
}

/* 38: one node too many is counted. 39: a bad roll is refused as if the rules were bad. 40: bad rules are taken, where the roll has one node.
 * 41: a node is refused that has no rule. 42: children are refused where there is no list. */
uint64_t __wrap_kepolas_check_content(const uint8_t *roll, size_t roll_len, const uint8_t *rules, size_t rules_len, const uint8_t *list,
                                      size_t list_len, size_t *told) {
    uint64_t refusal = __real_kepolas_check_content(roll, roll_len, rules, rules_len, list, list_len, told);
    size_t nodes = roll_len / KEPOLAS_NODE_BYTES;
    if (mistake(38) && refusal == 0) ++*told;
    if (mistake(39) && refusal >= KEPOLAS_ROLL_LENGTH && refusal <= KEPOLAS_PARENT_FIELD) return *told = 0, KEPOLAS_RULES_MALFORMED;
    if (mistake(40) && refusal == KEPOLAS_RULES_MALFORMED && nodes == 1) return *told = 1, 0;
    if (mistake(41) && refusal == KEPOLAS_CHILDREN_FORBIDDEN)
        for (size_t node = 0; node < nodes; node++)
            if (!listed(list, list_len, roll[KEPOLAS_NODE_BYTES * node])) *told = node;
    if (mistake(42) && refusal == 0 && list_len == 0) return *told = 0, KEPOLAS_CHILDREN_FORBIDDEN;
    return refusal;
}
