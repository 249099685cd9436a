/* A bound, in steps, of what answering may cost. The calls end on every input, but stars inside one another multiply, and an entry that is
 * used twice at every height doubles at every height: such inputs would stop the fuzzer for hours. They are left out by this bound. */
#ifndef FUZZ_COST_H
#define FUZZ_COST_H

#include "input.h"

#define COST_LIMIT 3e7

/* Of call 3. */
double cost_on_roll(struct part roll, struct part query);
/* Of calls 4 and 6; of call 4 where the query is empty. */
double cost_of_view(const struct part parts[PARTS]);
/* Of the check of content. */
double cost_of_content(struct part roll, struct part rules);
/* How many entries there are if each that a query's last one needs is written out as often as it is used; the query is in order. */
double written_out(struct part query);

#endif
