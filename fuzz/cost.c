#include "cost.h"

#include "kepolas.h"

#define MOST_ENTRIES (KEPOLAS_ANSWERED_LIMIT / KEPOLAS_ENTRY_BYTES)

static double cost_of_operand(const double *costs, size_t entry, const uint8_t *field) {
    size_t operand = field[0] + 256u * field[1];
    return operand < entry ? costs[operand] : 0;
}

/* What a step costs up or down and sideways, how many rounds a star takes at most, and how often a path is gone along that is asked where
 * it leads. */
struct prices {
    double upright, sideways, rounds, ways;
};

/* There and back. */
#define BOTH_WAYS 2

/* An entry is gone through once for each use, a star's once for each round. */
static double cost_of_entry(const double *costs, size_t entry, const uint8_t *bytes, struct prices prices) {
    double left = cost_of_operand(costs, entry, bytes + 2), right = cost_of_operand(costs, entry, bytes + 4);
    switch (bytes[0]) {
        case 2: case 3: return prices.upright;
        case 4: case 5: return prices.sideways;
        case 9: return 1 + prices.rounds * left;
        case 17: return 1 + prices.ways * left;
        case 7: case 8: case 21: case 22: return 1 + left + right;
        case 6: case 20: return 1 + left;
        default: return 1;
    }
}

/* The cost of each entry of a table, of which there are so many. */
static size_t cost_entries(double costs[MOST_ENTRIES], struct part table, struct prices prices) {
    size_t entry = 0;
    for (; entry < MOST_ENTRIES && (entry + 1) * KEPOLAS_ENTRY_BYTES <= table.length; entry++)
        costs[entry] = cost_of_entry(costs, entry, table.bytes + entry * KEPOLAS_ENTRY_BYTES, prices);
    return entry;
}

/* The cost of the dearest entry of a table. */
static double cost_of_table(struct part table, struct prices prices) {
    double greatest = 0, costs[MOST_ENTRIES];
    for (size_t entries = cost_entries(costs, table, prices); entries > 0; entries--)
        if (costs[entries - 1] > greatest) greatest = costs[entries - 1];
    return greatest;
}

/* What is kept of so many stars at most in one star, itself among them: those are gone on from once for each place in all, and stars behind
 * them once for each round of the star around them. */
#define STARS_KEPT 32

/* The cost of the dearest rule entry, where a star takes so many rounds. */
static double cost_of_rules(struct part rules, double rounds) {
    double greatest = 0, costs[MOST_ENTRIES], uses[MOST_ENTRIES], stars[MOST_ENTRIES];
    for (size_t entry = 0; entry < MOST_ENTRIES && (entry + 1) * KEPOLAS_RULE_BYTES <= rules.length; entry++) {
        const uint8_t *bytes = rules.bytes + entry * KEPOLAS_RULE_BYTES, *left = bytes + 2, *right = bytes + 4;
        double first = cost_of_operand(costs, entry, left), second = cost_of_operand(costs, entry, right);
        uses[entry] = 1 + cost_of_operand(uses, entry, left) + cost_of_operand(uses, entry, right);
        stars[entry] = (bytes[0] == 36) + cost_of_operand(stars, entry, left) + cost_of_operand(stars, entry, right);
        costs[entry] = 1 + (bytes[0] == 36 ? rounds * first : first + second);
        if (stars[entry] <= STARS_KEPT && rounds * uses[entry] < costs[entry]) costs[entry] = rounds * uses[entry];
        if (costs[entry] > greatest) greatest = costs[entry];
    }
    return greatest;
}

double written_out(struct part query) {
    double costs[MOST_ENTRIES];
    return costs[cost_entries(costs, query, (struct prices){1, 1, 1, 1}) - 1];
}

static double nodes_of(struct part roll) { return (double)(roll.length / KEPOLAS_NODE_BYTES); }

/* Everything takes longer on a larger roll. */
static double weight_of(double nodes) { return 1 + nodes / 16; }

double cost_on_roll(struct part roll, struct part query) {
    double nodes = nodes_of(roll);
    return weight_of(nodes) * cost_of_table(query, (struct prices){1, 1, nodes, BOTH_WAYS});
}

/* In a rewritten query a step goes over hidden nodes, sideways up and down again, and asks at each for the filters of all records. */
double cost_of_view(const struct part parts[PARTS]) {
    double nodes = nodes_of(parts[ROLL]), records = (double)(parts[ANNOTATION].length / KEPOLAS_ANNOTATION_BYTES);
    double visible = 1 + records * (1 + cost_of_table(parts[FILTERS], (struct prices){1, 1, nodes, BOTH_WAYS}));
    double over = 4 * nodes * visible;
    return weight_of(nodes) * (visible + cost_of_table(parts[QUERY], (struct prices){1 + over, 1 + nodes * over, nodes, BOTH_WAYS}));
}

/* A star goes on once for each child at most, and all nodes together have no more children than there are nodes. */
double cost_of_content(struct part roll, struct part rules) {
    double nodes = nodes_of(roll);
    return 8 * (cost_of_rules(rules, nodes + 1) + nodes * cost_of_rules(rules, 2));
}
