#include "why.h"

#include <inttypes.h>
#include <stdbool.h>
#include <stdio.h>

#include "planner.h"

/* Shows a sequence. */
static void show_rules(const uint8_t *rules, size_t length)
{
    printf("%s", length == 0 ? "the empty sequence" : length == 1 ? "rule " : "rules ");
    for (size_t at = 0; at < length; at++)
        printf("%s%u", at == 0 ? "" : ",", rules[at]);
}

/* Shows the reason, with the move, position or costs that go with it. */
static void show_reason(const struct query *query, const uint8_t *explanation)
{
    uint8_t place = planner_place(explanation);
    printf("reason %u: the proposal ", planner_reason(explanation));
    switch (planner_reason(explanation)) {
    case PLANNER_OVER_MOVES:
        printf("is over the move bound %zu: its length is %zu\n", query->max_moves, query->moves.length);
        break;
    case PLANNER_CANNOT_RUN:
        printf("cannot be run: move %u fails (rule %u)\n", place, query->moves.at[place - 1]);
        break;
    case PLANNER_OVER_COST:
        printf("passes the cost bound %u with move %u (rule %u)\n", query->max_cost, place,
               query->moves.at[place - 1]);
        break;
    case PLANNER_OFF_GOAL:
        printf("ends off the goal: the lowest wrong position is %u\n", place);
        break;
    case PLANNER_DEARER:
        printf("costs %u, the plan %u\n", planner_proposal_cost(explanation), planner_plan_cost(explanation));
        break;
    case PLANNER_LATER:
        printf("costs as much as the plan, and comes later in the order\n");
        break;
    case PLANNER_IS_PLAN:
        printf("is the plan\n");
        break;
    default:
        printf("has a reason without a name\n");
        break;
    }
}

/* Whether some state admits a segment; its macro is not wanted. */
static bool is_admitted(const struct query *query, const uint8_t *segment, size_t length)
{
    return planner_macro(query->rules.at, query->rules.length, segment, length, NULL, 0) != PLANNER_NOT_ADMITTED;
}

/* Shows the marked segment, its witness and what makes it redundant; nothing where no segment is marked. */
static void show_segment(const struct query *query, const uint8_t *explanation)
{
    uint64_t end = planner_segment_end(explanation);
    uint8_t length = planner_segment_length(explanation);
    if (length == 0)
        return;
    const uint8_t *segment = query->moves.at + (end - length);
    if (length == 1)
        printf("marked segment: move %" PRIu64 " (", end);
    else
        printf("marked segment: moves %" PRIu64 " to %" PRIu64 " (", end - length + 1, end);
    show_rules(segment, length);
    printf(")\nwitness: ");
    show_rules(planner_witness(explanation), planner_witness_length(explanation));
    printf("\n");
    if (is_admitted(query, segment, length))
        printf("wherever the segment runs, its witness leads to the same state, at no more cost\n");
    else
        printf("no state admits the segment\n");
}

/* Shows why a proposal is not explained. */
static void show_refusal(const struct query *query, uint8_t outcome)
{
    printf("not explained, outcome %u: ", outcome);
    if (outcome == PLANNER_STEP_LIMIT)
        printf("the search was not finished");
    else if (outcome == PLANNER_PLAN_AT_LIMIT)
        printf("the search was not finished, and the plan shown need not be the cheapest");
    else
        put_words(stdout, outcome, "explained", query);
    printf("\n");
}

uint8_t show_why(const struct query *query)
{
    uint8_t explanation[PLANNER_EXPLANATION_SIZE];
    uint8_t outcome = planner_explain(query->rules.at, query->rules.length, query->table.at, query->table.length,
                                      query->start.at, query->start.length, query->goal.at, query->goal.length,
                                      query->moves.at, query->moves.length, explanation, sizeof explanation,
                                      query->reach, query->max_moves, query->max_cost, query->step_limit);
    if (outcome == PLANNER_OK || outcome == PLANNER_NO_PLAN) {
        show_reason(query, explanation);
        show_segment(query, explanation);
    } else {
        show_refusal(query, outcome);
    }
    return outcome;
}
