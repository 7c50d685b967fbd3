/* Why a proposal is not the plan, in words. */
#ifndef WHY_H
#define WHY_H

#include <stdint.h>

#include "query.h"

/* Shows the reason that the planner gives for the query's proposal and, where the table marks a segment of it, the
 * segment and its witness; or why there is no explanation. Gives the outcome. */
uint8_t show_why(const struct query *query);

#endif
