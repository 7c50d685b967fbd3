#include "query.h"

#include <inttypes.h>
#include <string.h>

/* A number of the header as text. */
#define DIGITS_OF(number) #number
#define DIGITS(number) DIGITS_OF(number)

uint64_t build_table(struct query *query)
{
    uint64_t size = planner_table_size(query->rules.at, query->rules.length, query->reach);
    query->table = (struct bytes){NULL, 0, false};
    if (planner_outcome(size) != PLANNER_OK)
        return planner_outcome(size);
    query->table.length = (size_t)planner_size(size);
    query->table.at = allocate(query->table.length);
    return planner_build_table(query->rules.at, query->rules.length, query->table.at, query->table.length,
                               query->reach);
}

/* An outcome in words, whatever the query. */
static const char *general_words(uint8_t outcome, const char *success)
{
    static const char *const words[] = {
        [PLANNER_BAD_FORM] = "rule file: a byte does not fit, the file ends early, or bytes are left over",
        [PLANNER_OUTSIDE_LIMIT] = "rule file: a number outside its limit",
        [PLANNER_MISPLACED_VARIABLE] = "rule file: a variable out of place",
        [PLANNER_DUPLICATE_RULES] = "rule file: two rules with equal cost, if and then lines",
        [PLANNER_BAD_REACH] = "the reach is not 1 to " DIGITS(PLANNER_MAX_REACH),
        [PLANNER_BAD_TABLE_LENGTH] = "the table has not the length for these rules and this reach",
        [PLANNER_INVALID_RULE_SET] = "the rule set is not valid",
        [PLANNER_SHORT_TEXT_BUFFER] = "the text buffer is shorter than the file",
        [PLANNER_BAD_START] = "the start has a wrong length or a value not below its size",
        [PLANNER_BAD_GOAL] = "the goal has a wrong length or a value not below its size",
        [PLANNER_TOO_MANY_MOVES] = "more than " DIGITS(PLANNER_MAX_MOVES) " moves",
        [PLANNER_SHORT_PLAN_BUFFER] = "the plan buffer is shorter than the move bound",
        [PLANNER_UNKNOWN_MOVE] = "a move that is no rule's number",
        [PLANNER_TABLE_NOT_ACCEPTED] = "the table is not accepted",
        [PLANNER_NO_PLAN] = "no plan within the bounds",
        [PLANNER_STEP_LIMIT] = "no plan met, and more sequences to visit than the step limit",
        [PLANNER_NOT_ADMITTED] = "no state admits the sequence",
        [PLANNER_PLAN_AT_LIMIT] =
            "a plan met, which need not be the cheapest, and more sequences to visit than the step limit",
    };
    if (outcome == PLANNER_OK)
        return success;
    return outcome < sizeof words / sizeof words[0] ? words[outcome] : "an outcome without a name";
}

/* The sizes of a rule file that the planner has read, in its second line; gives how many positions there are. */
static size_t sizes_of(struct bytes rules, uint8_t sizes[PLANNER_MAX_POSITIONS])
{
    static const char key[] = "sizes=";
    const uint8_t *end = rules.at + rules.length;
    const uint8_t *line = memchr(rules.at, '\n', rules.length);
    size_t positions = 0;
    unsigned size = 0;
    if (line == NULL || (size_t)(end - line) < sizeof key)
        return 0;
    for (const uint8_t *at = line + sizeof key; at < end && positions < PLANNER_MAX_POSITIONS; at++) {
        if (*at >= '0' && *at <= '9') {
            size = 10 * size + (unsigned)(*at - '0');
            continue;
        }
        sizes[positions++] = (uint8_t)size;
        size = 0;
        if (*at != ',')
            break;
    }
    return positions;
}

/* What is wrong with a start or a goal: its length, or the first value that is not below its size. */
static void put_fault(FILE *out, struct bytes rules, struct bytes values, bool any_allowed)
{
    uint8_t sizes[PLANNER_MAX_POSITIONS];
    size_t positions = sizes_of(rules, sizes);
    size_t at = 0;
    if (values.length != positions) {
        fprintf(out, ": its length is %zu, %zu is due", values.length, positions);
        return;
    }
    while (at < positions && (values.at[at] < sizes[at] || (any_allowed && values.at[at] == PLANNER_ANY)))
        at++;
    if (at < positions)
        fprintf(out, ": at position %zu it has %u, the size there is %u", at + 1, values.at[at], sizes[at]);
}

/* The table's length, the one that is due, and the reach at which it would be right. */
static void put_lengths(FILE *out, const struct query *query)
{
    if (query->table.cut)
        fprintf(out, ": its length is above %d", PLANNER_MAX_TABLE);
    else
        fprintf(out, ": its length is %zu", query->table.length);
    uint64_t due = planner_size(planner_table_size(query->rules.at, query->rules.length, query->reach));
    fprintf(out, ", %" PRIu64 " is due at reach %zu", due, query->reach);
    for (size_t reach = 1; reach <= PLANNER_MAX_REACH; reach++)
        if (planner_size(planner_table_size(query->rules.at, query->rules.length, reach)) == query->table.length)
            fprintf(out, "; %zu is due at reach %zu", query->table.length, reach);
}

/* How many rules a rule file without a fault has: the number after the last is no rule's. */
static uint8_t rule_count(struct bytes rules)
{
    uint8_t count = 0;
    for (uint8_t rule = 1; rule <= PLANNER_MAX_RULES; rule++)
        if (planner_macro(rules.at, rules.length, &rule, 1, NULL, 0) != PLANNER_UNKNOWN_MOVE)
            count = rule;
    return count;
}

/* The first move that is no rule's number. */
static void put_unknown_move(FILE *out, struct bytes rules, struct bytes moves)
{
    uint8_t count = rule_count(rules);
    size_t at = 0;
    while (at < moves.length && moves.at[at] >= 1 && moves.at[at] <= count)
        at++;
    if (at < moves.length)
        fprintf(out, ": move %zu is %u, the rules are 1 to %u", at + 1, moves.at[at], count);
}

void put_words(FILE *out, uint8_t outcome, const char *success, const struct query *query)
{
    fputs(general_words(outcome, success), out);
    switch (outcome) {
    case PLANNER_BAD_FORM:
    case PLANNER_OUTSIDE_LIMIT:
    case PLANNER_MISPLACED_VARIABLE:
    case PLANNER_DUPLICATE_RULES:
        if (query->rules.length > PLANNER_MAX_FILE)
            fprintf(out, "; the file has more than %d bytes, the most of a rule file", PLANNER_MAX_FILE);
        break;
    case PLANNER_BAD_REACH:
        fprintf(out, ": it is %zu", query->reach);
        break;
    case PLANNER_BAD_TABLE_LENGTH:
        put_lengths(out, query);
        break;
    case PLANNER_BAD_START:
        put_fault(out, query->rules, query->start, false);
        break;
    case PLANNER_BAD_GOAL:
        put_fault(out, query->rules, query->goal, true);
        break;
    case PLANNER_TOO_MANY_MOVES:
        fprintf(out, ": %zu", query->max_moves);
        break;
    case PLANNER_UNKNOWN_MOVE:
        put_unknown_move(out, query->rules, query->moves);
        break;
    case PLANNER_TABLE_NOT_ACCEPTED:
        fprintf(out, ": a mark is not justified; 'table build RULES %zu TABLE' writes a right one", query->reach);
        break;
    case PLANNER_NO_PLAN:
        fprintf(out, ": moves %zu, cost %u", query->max_moves, query->max_cost);
        break;
    case PLANNER_STEP_LIMIT:
    case PLANNER_PLAN_AT_LIMIT:
        fprintf(out, ": %" PRIu32, query->step_limit);
        break;
    default:
        break;
    }
}
