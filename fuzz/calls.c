/* The seven calls, printing and the check of content under libFuzzer: each input is split (input.h), put to one of them, and the reply and the lent bytes are
 * held to what docs/MANUAL.md promises, as far as that is cheap to say. A promise that does not hold ends the run. */
#include <stdio.h>
#include <stdlib.h>
#include <string.h>

#include "cost.h"
#include "input.h"
#include "kepolas.h"

struct reply {
    uint64_t refusal;
    size_t told;
};

static void hold(int promise, const char *sentence) {
    if (promise) return;
    fprintf(stderr, "broken promise: %s\n", sentence);
    abort();
}

/* Rooms hold these bytes before a call. */
static uint8_t mark(size_t at) { return (uint8_t)(0xA5 ^ (at * 7)); }

static struct part marked_room(size_t length) {
    struct part room = {malloc(length), length};
    if (room.bytes == NULL) abort();
    for (size_t at = 0; at < length; at++) room.bytes[at] = mark(at);
    return room;
}

static int untouched_from(struct part room, size_t first) {
    for (size_t at = first; at < room.length; at++)
        if (room.bytes[at] != mark(at)) return 0;
    return 1;
}

/* The call by its number, on a room; what it tells is a block of its own too. */
static struct reply put(unsigned call, const struct part *parts, struct part room) {
    struct part roll = parts[ROLL], annotation = parts[ANNOTATION], filters = parts[FILTERS], query = parts[QUERY];
    size_t *told = malloc(sizeof *told);
    if (told == NULL) abort();
    *told = (size_t)-1;
    struct reply reply = {0, 0};
    switch (call) {
        case 1: reply.refusal = kepolas_check_roll(roll.bytes, roll.length, told); break;
        case 2: reply.refusal = kepolas_read_text(query.bytes, query.length, room.bytes, room.length, told); break;
        case 3:
            reply.refusal = kepolas_answer_on_roll(roll.bytes, roll.length, query.bytes, query.length, room.bytes, room.length, told);
            break;
        case 4:
            reply.refusal = kepolas_cut_view(roll.bytes, roll.length, annotation.bytes, annotation.length, filters.bytes, filters.length,
                                             room.bytes, room.length, told);
            break;
        case 5:
            reply.refusal = kepolas_rewrite(annotation.bytes, annotation.length, filters.bytes, filters.length, query.bytes, query.length,
                                            room.bytes, room.length, told);
            break;
        case PRINTING: reply.refusal = kepolas_print_query(query.bytes, query.length, room.bytes, room.length, told); break;
        case CONTENT:
            reply.refusal =
                kepolas_check_content(roll.bytes, roll.length, query.bytes, query.length, filters.bytes, filters.length, told);
            break;
        default:
            reply.refusal = kepolas_curators_answer(roll.bytes, roll.length, annotation.bytes, annotation.length, filters.bytes,
                                                    filters.length, query.bytes, query.length, room.bytes, room.length, told);
    }
    reply.told = *told;
    free(told);
    return reply;
}

static int same(struct reply one, struct reply other) { return one.refusal == other.refusal && one.told == other.told; }

/* The refusals that the list has for a call: bit n stands for number n. */
static const uint32_t REFUSALS[CONTENT + 1] = {0, 0x3c, 0x9e002, 0x133e, 0xffe, 0x1fc2, 0x1ffe, 0, 0x41302, 0x30003c};

/* The first star right behind a star, or the end of the text. */
static size_t slip(struct part text) {
    for (size_t place = 1; place < text.length; place++)
        if (text.bytes[place - 1] == '*' && text.bytes[place] == '*') return place;
    return text.length;
}

static int place_fits(uint64_t refusal, size_t place, const struct part *parts) {
    size_t records = parts[ANNOTATION].length / KEPOLAS_ANNOTATION_BYTES, entries = parts[QUERY].length / KEPOLAS_ENTRY_BYTES;
    switch (refusal) {
        case KEPOLAS_NODE_LABEL: case KEPOLAS_SECOND_BYTE: case KEPOLAS_PARENT_FIELD: case KEPOLAS_CHILDREN_FORBIDDEN:
            return place < parts[ROLL].length / KEPOLAS_NODE_BYTES;
        case KEPOLAS_ANNOTATION_RECORD: case KEPOLAS_PAIR_ORDER: return place < records;
        case KEPOLAS_ENTRY_MALFORMED: case KEPOLAS_ENTRY_HEIGHT:
            return place < entries || place < parts[FILTERS].length / KEPOLAS_ENTRY_BYTES;
        case KEPOLAS_QUERY_TABLE: return place == 0 || place + 1 == entries;
        case KEPOLAS_NOT_IN_GRAMMAR: return place <= parts[QUERY].length;
        case KEPOLAS_TOO_MANY_OPEN: return place < parts[QUERY].length && memchr("([{", parts[QUERY].bytes[place], 3) != NULL;
        case KEPOLAS_RULES_MALFORMED:
            return place == 0 || place < entries || place < parts[FILTERS].length / KEPOLAS_LISTED_BYTES;
        case KEPOLAS_TWO_STARS: return place < parts[QUERY].length && place == slip(parts[QUERY]);
        default: return place == 0;
    }
}

static void hold_refusal(unsigned call, struct reply reply, const struct part *parts, struct part room) {
    hold(reply.refusal < 22 && (REFUSALS[call] >> reply.refusal & 1), "a call refuses by the numbers that the list has for it");
    hold(place_fits(reply.refusal, reply.told, parts), "the place of a refusal lies in what is refused");
    hold(untouched_from(room, 0), "a refused call changes no byte of the room");
}

/* A table is in order for call 3 exactly if it is answered on a root alone. */
static void hold_in_order(struct part table) {
    static const uint8_t root[] = {1, 0, 0xff, 0xff};
    struct part parts[PARTS] = {block_of(root, sizeof root), {0}, {0}, table};
    struct part room = marked_room(KEPOLAS_BITMAP_ROOM);
    if (cost_on_roll(parts[ROLL], table) < COST_LIMIT)
        hold(put(3, parts, room).refusal == 0, "what calls 2 and 5 write is a table for call 3");
    free(room.bytes);
    free(parts[ROLL].bytes);
}

static void hold_table(struct part room, size_t entries, size_t most) {
    hold(entries >= 1 && entries <= most, "a table has at least one entry and no more than its limit");
    hold(untouched_from(room, KEPOLAS_ENTRY_BYTES * entries), "bytes behind the table stay as they were");
    struct part table = block_of(room.bytes, KEPOLAS_ENTRY_BYTES * entries);
    hold_in_order(table);
    free(table.bytes);
}

static void hold_rewritten(struct part room, size_t entries, struct part filters) {
    hold_table(room, entries, KEPOLAS_REWRITTEN_ROOM / KEPOLAS_ENTRY_BYTES);
    hold(KEPOLAS_ENTRY_BYTES * entries > filters.length && memcmp(room.bytes, filters.bytes, filters.length) == 0,
         "a rewritten table begins with the filter table's entries");
}

static void hold_bitmap(struct part room, size_t count, size_t nodes) {
    size_t ones = 0;
    for (size_t at = 0; at < 8 * KEPOLAS_BITMAP_ROOM; at++) {
        int one = room.bytes[at / 8] >> (at % 8) & 1;
        hold(!one || at < nodes, "an answer has nodes of the roll alone");
        ones += (size_t)one;
    }
    hold(ones == count, "the count is the number of ones");
    hold(untouched_from(room, KEPOLAS_BITMAP_ROOM), "bytes behind the bitmap stay as they were");
}

static void hold_view(struct part room, size_t nodes, const struct part *parts) {
    struct part roll = parts[ROLL];
    hold(nodes >= 1 && nodes <= roll.length / KEPOLAS_NODE_BYTES, "a view has the root and no more nodes than the roll");
    hold(untouched_from(room, KEPOLAS_NODE_BYTES * nodes), "bytes behind the view stay as they were");
    struct part whole[PARTS] = {block_of(room.bytes, KEPOLAS_NODE_BYTES * nodes)};
    hold(same(put(1, whole, (struct part){0}), (struct reply){0, nodes}), "a view is a roll with the same count");
    hold(memcmp(room.bytes, roll.bytes, KEPOLAS_NODE_BYTES) == 0, "the root is visible");
    if (parts[ANNOTATION].length == 0)
        hold(nodes == roll.length / KEPOLAS_NODE_BYTES && memcmp(room.bytes, roll.bytes, roll.length) == 0,
             "with no records everything is visible");
    free(whole[ROLL].bytes);
}

/* The rewritten query reaches on the roll as many nodes as there are view positions in her answer. */
static void hold_rewriting(size_t count, const struct part *parts) {
    struct part table = marked_room(KEPOLAS_REWRITTEN_ROOM), room = marked_room(KEPOLAS_BITMAP_ROOM);
    struct reply rewritten = put(5, parts, table);
    hold(rewritten.refusal == 0, "call 5 takes what call 6 takes");
    struct part asked[PARTS] = {parts[ROLL], {0}, {0}, {table.bytes, KEPOLAS_ENTRY_BYTES * rewritten.told}};
    hold(same(put(3, asked, room), (struct reply){0, count}), "the rewritten query reaches as many nodes as her answer has");
    free(room.bytes);
    free(table.bytes);
}

/* Her answer, or refusal, is that of call 4 and then, on the view, of call 3. */
static void hold_curators(struct reply reply, struct part bitmap, const struct part *parts) {
    struct part view = marked_room(parts[ROLL].length), room = marked_room(KEPOLAS_BITMAP_ROOM);
    struct reply cut = put(4, parts, view);
    if (cut.refusal != 0) {
        hold(same(cut, reply), "call 6 refuses what call 4 refuses, alike");
    } else if (reply.refusal != 0) {
        hold(reply.refusal == KEPOLAS_ENTRY_MALFORMED || reply.refusal == KEPOLAS_ENTRY_HEIGHT || reply.refusal == KEPOLAS_QUERY_TABLE,
             "where call 4 refuses nothing, call 6 refuses the query alone");
    } else {
        struct part asked[PARTS] = {{view.bytes, KEPOLAS_NODE_BYTES * cut.told}, {0}, {0}, parts[QUERY]};
        hold(same(put(3, asked, room), reply), "call 6 counts what call 3 counts on the view");
        hold(memcmp(room.bytes, bitmap.bytes, KEPOLAS_BITMAP_ROOM) == 0, "call 6 answers what call 3 answers on the view");
        hold_rewriting(reply.told, parts);
    }
    free(room.bytes);
    free(view.bytes);
}

/* The roll comes first: calls 3, 4 and 6 refuse a bad one as call 1 does, and no other. */
static void hold_roll_first(struct reply reply, const struct part *parts) {
    struct reply checked = put(1, parts, (struct part){0});
    int of_roll = reply.refusal >= KEPOLAS_ROLL_LENGTH && reply.refusal <= KEPOLAS_PARENT_FIELD;
    hold(checked.refusal == 0 ? !of_roll : same(checked, reply), "a bad roll is refused as call 1 refuses it");
}

/* Call 5 takes and refuses what call 6 does on a root alone. */
static void hold_as_curator(struct reply reply, const struct part *parts) {
    static const uint8_t root[] = {1, 0, 0xff, 0xff};
    struct part asked[PARTS] = {block_of(root, sizeof root), parts[ANNOTATION], parts[FILTERS], parts[QUERY]};
    struct part room = marked_room(KEPOLAS_BITMAP_ROOM);
    if (cost_of_view(asked) < COST_LIMIT) {
        struct reply answered = put(6, asked, room);
        hold(reply.refusal == 0 ? answered.refusal == 0 : same(answered, reply), "call 5 refuses what call 6 refuses, alike");
    }
    free(room.bytes);
    free(asked[ROLL].bytes);
}

/* A query as call 5 takes or refuses it where there is no annotation. */
static struct reply rewritten_alone(struct part query) {
    struct part none = {query.bytes, 0}, asked[PARTS] = {none, none, none, query}, table = marked_room(KEPOLAS_REWRITTEN_ROOM);
    struct reply reply = put(5, asked, table);
    free(table.bytes);
    return reply;
}

static struct reply put_query(unsigned call, struct part query, struct part room) {
    return put(call, (struct part[PARTS]){{0}, {0}, {0}, query}, room);
}

/* A table that call 2 wrote for a text of this length, printed and read. */
static void hold_printed_back(struct part table, size_t length) {
    struct part text = marked_room(KEPOLAS_TEXT_ROOM), again = marked_room(KEPOLAS_TABLE_ROOM);
    struct reply printed = put_query(PRINTING, table, text);
    hold(printed.refusal == 0, "what call 2 writes is printed");
    hold(printed.told <= length, "what call 2 writes is printed with no more bytes than were read");
    struct reply read = put_query(2, (struct part){text.bytes, printed.told}, again);
    hold(same(read, (struct reply){0, table.length / KEPOLAS_ENTRY_BYTES}) && memcmp(again.bytes, table.bytes, table.length) == 0,
         "what call 2 writes is printed and read as the same bytes");
    free(again.bytes);
    free(text.bytes);
}

/* A text with two stars in a row is refused by 19, or by 14 or 15 at a place before. Where there are none, 19 is not in place. */
static void hold_slip(struct reply reply, struct part text) {
    size_t first = slip(text);
    if (first == text.length || reply.refusal == KEPOLAS_SHORT_ROOM || reply.refusal == KEPOLAS_TEXT_LENGTH) return;
    int before = (reply.refusal == KEPOLAS_NOT_IN_GRAMMAR || reply.refusal == KEPOLAS_TOO_MANY_OPEN) && reply.told < first;
    hold(before || reply.refusal == KEPOLAS_TWO_STARS, "two stars in a row are refused, where reading comes so far");
}

/* A text is too short or too long exactly by its length; one that is read gives a table that a curator may ask, and that is printed. */
static void hold_text(struct reply reply, const struct part *parts, struct part room) {
    size_t length = parts[QUERY].length;
    hold((reply.refusal == KEPOLAS_TEXT_LENGTH) == (length == 0 || length > KEPOLAS_TEXT_LIMIT), "13 is given exactly by the length");
    hold_slip(reply, parts[QUERY]);
    if (reply.refusal != 0) return;
    struct part table = {room.bytes, KEPOLAS_ENTRY_BYTES * reply.told};
    hold(rewritten_alone(table).refusal == 0, "what call 2 writes is a table for a curator");
    hold_printed_back(table, length);
}

/* An entry takes three bytes at most, brackets with it, and one at least, but for one that asks where a path leads and takes none. */
static void hold_too_long(int too_long, double entries) {
    if (3 * entries <= KEPOLAS_TEXT_LIMIT) hold(!too_long, "18 is not given where a text cannot be too long");
    if (entries > 2 * KEPOLAS_TEXT_LIMIT) hold(too_long, "18 is given where a text must be too long");
}

/* Printing refuses a query as call 5 does; of what call 5 takes it refuses texts that are too long. */
static void hold_query(struct reply reply, struct part query) {
    struct reply rewritten = rewritten_alone(query);
    int too_long = reply.refusal == KEPOLAS_TEXT_TOO_LONG;
    hold(reply.refusal == 0 || too_long ? rewritten.refusal == 0 : same(rewritten, reply), "printing refuses a query as call 5 does");
    if (rewritten.refusal == 0) hold_too_long(too_long, written_out(query));
}

/* What is printed is read as the query's entries, written out one by one, and these are printed alike; or they are too many. */
static void hold_printed(struct part room, size_t bytes, struct part query) {
    hold(bytes >= 1 && bytes <= KEPOLAS_TEXT_LIMIT, "a printed text has at least one byte and no more than its limit");
    hold(untouched_from(room, bytes), "bytes behind the text stay as they were");
    struct part text = block_of(room.bytes, bytes), table = marked_room(KEPOLAS_TABLE_ROOM), again = marked_room(KEPOLAS_TEXT_ROOM);
    struct reply read = put_query(2, text, table);
    double entries = written_out(query);
    if (entries > KEPOLAS_QUERY_LIMIT / KEPOLAS_ENTRY_BYTES) {
        hold(same(read, (struct reply){KEPOLAS_TABLE_TOO_LARGE, 0}), "what is printed of too many entries is refused with 16");
    } else {
        hold(same(read, (struct reply){0, (size_t)entries}), "what is printed is read as the entries written out");
        struct reply printed = put_query(PRINTING, (struct part){table.bytes, KEPOLAS_ENTRY_BYTES * read.told}, again);
        hold(same(printed, (struct reply){0, bytes}) && memcmp(again.bytes, text.bytes, bytes) == 0,
             "what is printed, read and printed is the same text");
    }
    free(again.bytes);
    free(table.bytes);
    free(text.bytes);
}

/* The check of content of another roll or list, by the same rules. */
static struct reply put_content(struct part roll, const struct part *parts, size_t list_length) {
    struct part list = {parts[FILTERS].bytes, list_length};
    return put(CONTENT, (struct part[PARTS]){roll, {0}, list, parts[QUERY]}, (struct part){0});
}

static int listed(struct part list, uint8_t label) {
    for (size_t at = 0; at + KEPOLAS_LISTED_BYTES <= list.length; at += KEPOLAS_LISTED_BYTES)
        if (list.bytes[at] == label) return 1;
    return 0;
}

/* Rules are refused alike on every roll; only a listed label is refused; and what passes with a list passes with less of it. */
static void hold_content(struct reply reply, const struct part *parts) {
    static const uint8_t root[] = {1, 0, 0xff, 0xff};
    struct part roll = parts[ROLL], list = parts[FILTERS], alone = block_of(root, sizeof root);
    if (put(1, parts, (struct part){0}).refusal == 0) {
        struct reply on_root = put_content(alone, parts, list.length);
        int of_rules = reply.refusal == KEPOLAS_RULES_MALFORMED, there = on_root.refusal == KEPOLAS_RULES_MALFORMED;
        hold(of_rules == there && (!there || same(on_root, reply)), "rules are refused alike on every roll");
    }
    if (reply.refusal == KEPOLAS_CHILDREN_FORBIDDEN)
        hold(listed(list, roll.bytes[KEPOLAS_NODE_BYTES * reply.told]), "a node whose children are refused has a label that is listed");
    if (reply.refusal == 0 && list.length > 0)
        hold(put_content(roll, parts, list.length - KEPOLAS_LISTED_BYTES).refusal == 0, "what passes with a list passes with less of it");
    free(alone.bytes);
}

/* What two calls have in common. */
static void hold_alike(unsigned call, struct reply reply, const struct part *parts, struct part room) {
    switch (call) {
        case 2: hold_text(reply, parts, room); break;
        case 3: case 4: hold_roll_first(reply, parts); break;
        case 5: hold_as_curator(reply, parts); break;
        case 6:
            hold_roll_first(reply, parts);
            hold_curators(reply, room, parts);
            break;
        case PRINTING: hold_query(reply, parts[QUERY]); break;
        case CONTENT:
            hold_roll_first(reply, parts);
            hold_content(reply, parts);
            break;
        default: break;
    }
}

static void hold_accepted(unsigned call, struct reply reply, const struct part *parts, struct part room) {
    size_t nodes = parts[ROLL].length / KEPOLAS_NODE_BYTES;
    switch (call) {
        case 1: case CONTENT: hold(reply.told == nodes && nodes >= 1 && nodes <= 4096, "a check of a roll counts the nodes"); break;
        case 2: hold_table(room, reply.told, KEPOLAS_TABLE_ROOM / KEPOLAS_ENTRY_BYTES); break;
        case 4: hold_view(room, reply.told, parts); break;
        case 5: hold_rewritten(room, reply.told, parts[FILTERS]); break;
        case PRINTING: hold_printed(room, reply.told, parts[QUERY]); break;
        default: hold_bitmap(room, reply.told, nodes);
    }
}

static int inside(const uint8_t *roll, size_t record, size_t k) {
    const uint8_t *parent = roll + KEPOLAS_NODE_BYTES * record + 2;
    return parent[0] + 256u * parent[1] >= k;
}

/* The run of record k is as long as the records behind it have parents from k on. */
static void hold_run(struct part roll, size_t k, size_t start, size_t end, int good) {
    size_t nodes = roll.length / KEPOLAS_NODE_BYTES, last = k + 1;
    if (!good || k >= nodes) {
        hold(start == 0 && end == 0, "a bad roll or a record not in it gives an empty part");
        return;
    }
    while (last < nodes && inside(roll.bytes, last, k)) last++;
    hold(start == KEPOLAS_NODE_BYTES * k && end == KEPOLAS_NODE_BYTES * last, "a run holds a record and all its descendants");
}

static void ask_for_run(const struct input *input) {
    struct part roll = input->parts[ROLL];
    size_t *start = malloc(sizeof *start), *end = malloc(sizeof *end);
    if (start == NULL || end == NULL) abort();
    kepolas_run_of(roll.bytes, roll.length, input->record, start, end);
    hold_run(roll, input->record, *start, *end, put(1, input->parts, (struct part){0}).refusal == 0);
    free(start);
    free(end);
}

static size_t room_of(const struct input *input) {
    const size_t asked[CONTENT + 1] = {0, 0, KEPOLAS_TABLE_ROOM, KEPOLAS_BITMAP_ROOM, input->parts[ROLL].length, KEPOLAS_REWRITTEN_ROOM,
                                        KEPOLAS_BITMAP_ROOM, 0, KEPOLAS_TEXT_ROOM, 0};
    return asked[input->call];
}

static void ask(const struct input *input) {
    size_t asked = room_of(input);
    size_t given = input->room_more < 0 && (size_t)-input->room_more > asked ? 0 : asked + (size_t)(ptrdiff_t)input->room_more;
    int has_room = input->call != 1 && input->call != CONTENT;
    struct part room = marked_room(has_room ? given : 0);
    struct reply reply = put(input->call, input->parts, room);
    if (has_room)
        hold((reply.refusal == KEPOLAS_SHORT_ROOM) == (given < asked), "1 is given exactly where the room is too short");
    if (reply.refusal != 0)
        hold_refusal(input->call, reply, input->parts, room);
    else
        hold_accepted(input->call, reply, input->parts, room);
    if (reply.refusal != KEPOLAS_SHORT_ROOM) hold_alike(input->call, reply, input->parts, room);
    free(room.bytes);
}

static int costs_too_much(const struct input *input) {
    const struct part *parts = input->parts;
    struct part no_query[PARTS] = {parts[ROLL], parts[ANNOTATION], parts[FILTERS], {0}};
    switch (input->call) {
        case 3: return cost_on_roll(parts[ROLL], parts[QUERY]) > COST_LIMIT;
        case 4: return cost_of_view(no_query) > COST_LIMIT;
        case 6: return cost_of_view(parts) > COST_LIMIT;
        case CONTENT: return cost_of_content(parts[ROLL], parts[QUERY]) > COST_LIMIT;
        default: return 0;
    }
}

/* The bytes of the parts in one number, to see that a call changes none of what it only reads. */
static uint64_t sum_of(const struct input *input) {
    uint64_t sum = 0xcbf29ce484222325;
    for (int name = 0; name < PARTS; name++)
        for (size_t at = 0; at < input->parts[name].length; at++) sum = (sum ^ input->parts[name].bytes[at]) * 0x100000001b3;
    return sum;
}

int LLVMFuzzerTestOneInput(const uint8_t *data, size_t size) {
    if (size < HEAD_BYTES) return 0;
    struct input input;
    split_input(data, size, &input);
    if (!costs_too_much(&input)) {
        uint64_t before = sum_of(&input);
        if (input.call == 7)
            ask_for_run(&input);
        else
            ask(&input);
        hold(sum_of(&input) == before, "a call changes nothing that it only reads");
    }
    free_input(&input);
    return 0;
}
