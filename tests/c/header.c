/* Calls every entry through include/planner.h, and uses each of its names, so that a declaration, a helper or a number
 * that does not fit shows. Document 01's E and small rule files; what each call has to give is written here by hand.
 * The first that differs is named, and the status is then 1. tests/c/header builds and runs it. */
#include <pthread.h>
#include <stdbool.h>
#include <stdio.h>
#include <stdlib.h>
#include <string.h>

#include "planner.h"

static const uint8_t rules[] =
    "positions=2\nsizes=2,2\nrules=2\n"
    "cost=1\nif=x1,x2\nthen=0,x2\n"
    "cost=1\nif=x1,x2\nthen=x1,0\n";
enum { RULES_LENGTH = sizeof rules - 1 };

/* drop=1,1 for=1; drop=2,1 for=1,2; drop=2,2 for=2: they read no position, and write 1 and 2 */
static const uint8_t marks[14] = {255, 255, 255, 255, 255, 255, 1, 0, 255, 255, 4, 0, 2, 0};

static void expect(const char *name, bool holds)
{
    if (holds)
        return;
    printf("%s differs\n", name);
    exit(1);
}

/* Whether a buffer holds these bytes, and this byte after them. */
static bool holds(const uint8_t *buffer, size_t length, const uint8_t *front, size_t front_length, uint8_t rest)
{
    for (size_t at = 0; at < length; at++)
        if (buffer[at] != (at < front_length ? front[at] : rest))
            return false;
    return true;
}

static void files(void)
{
    static const uint8_t many[] = "positions=17\n";
    static const uint8_t later[] = "positions=2\nsizes=2,2\nrules=1\ncost=1\nif=x2,x2\nthen=0,0\n";
    static const uint8_t equal[] =
        "positions=1\nsizes=2\nrules=2\ncost=1\nif=x1\nthen=0\ncost=1\nif=x1\nthen=0\n";
    static const uint8_t dearer[] =
        "positions=1\nsizes=2\nrules=2\ncost=1\nif=x1\nthen=0\ncost=2\nif=x1\nthen=0\n";
    uint8_t out[90];
    expect("planner_read", planner_read(rules, RULES_LENGTH) == PLANNER_OK);
    expect("planner_read of 17 positions", planner_read(many, sizeof many - 1) == PLANNER_OUTSIDE_LIMIT);
    expect("planner_read of a later position's variable",
           planner_read(later, sizeof later - 1) == PLANNER_MISPLACED_VARIABLE);
    expect("planner_read of equal rules", planner_read(equal, sizeof equal - 1) == PLANNER_DUPLICATE_RULES);
    expect("planner_read of equal lines and another cost", planner_read(dearer, sizeof dearer - 1) == PLANNER_OK);
    memset(out, 7, sizeof out);
    uint64_t answer = planner_rewrite(rules, RULES_LENGTH, out, sizeof out);
    expect("planner_rewrite", planner_outcome(answer) == PLANNER_OK && planner_size(answer) == 82);
    expect("the file written again", holds(out, sizeof out, rules, 82, 0));
    memset(out, 7, sizeof out);
    answer = planner_rewrite(rules, RULES_LENGTH, out, 81);
    expect("planner_rewrite into 81 bytes", answer == PLANNER_SHORT_TEXT_BUFFER);
    expect("the buffer of 81 bytes", holds(out, 81, NULL, 0, 0) && out[81] == 7);
}

/* Whether this is the answer for a table with outcome 0: the positions read in bits 16 to 31, those written in bits 32
 * to 47, and no other bit. */
static bool is_answer(uint64_t answer, uint16_t reads, uint16_t writes)
{
    return answer == ((uint64_t)reads << 16 | (uint64_t)writes << 32) && planner_outcome(answer) == PLANNER_OK
        && planner_reads(answer) == reads && planner_writes(answer) == writes;
}

static void tables(void)
{
    uint8_t table[14];
    memset(table, 7, sizeof table);
    uint64_t size = planner_table_size(rules, RULES_LENGTH, 2);
    expect("planner_table_size", planner_outcome(size) == PLANNER_OK && planner_size(size) == sizeof table);
    uint64_t answer = planner_build_table(rules, RULES_LENGTH, table, sizeof table, 2);
    expect("planner_build_table", is_answer(answer, 0, 3) && holds(table, sizeof table, marks, sizeof marks, 0));
    answer = planner_build_table(rules, RULES_LENGTH, table, sizeof table, 1);
    expect("planner_build_table of reach 1", answer == PLANNER_BAD_TABLE_LENGTH);
    expect("the table of a refused build", holds(table, sizeof table, NULL, 0, 0));
    answer = planner_check_table(rules, RULES_LENGTH, marks, sizeof marks, 2);
    expect("planner_check_table", is_answer(answer, 0, 3));
    answer = planner_check_table(rules, RULES_LENGTH, table, sizeof table, 2);
    expect("planner_check_table of zeros", answer == PLANNER_TABLE_NOT_ACCEPTED);
    /* the same marks, but drop=2,2 for=1, which is wrong */
    memcpy(table, marks, sizeof table);
    table[12] = 1;
    answer = planner_check_table(rules, RULES_LENGTH, table, sizeof table, 2);
    expect("planner_check_table of a wrong mark", answer == PLANNER_TABLE_NOT_ACCEPTED);
    answer = planner_check_table(rules, RULES_LENGTH, marks, sizeof marks, 4);
    expect("planner_check_table of reach 4", answer == PLANNER_BAD_REACH);
    for (size_t at = 0; at < sizeof table; at += 2) {
        table[at] = PLANNER_KEPT & 255;
        table[at + 1] = PLANNER_KEPT >> 8;
    }
    answer = planner_check_table(rules, RULES_LENGTH, table, sizeof table, 2);
    expect("planner_check_table of a table that keeps all", is_answer(answer, 0, 0));
}

/* Whether a rule file has this table of reach 2, and its marked sequences read and write these positions. */
static bool builds(const char *text, const uint8_t *entries, size_t length, uint16_t reads, uint16_t writes)
{
    const uint8_t *file = (const uint8_t *)text;
    uint8_t table[14];
    memset(table, 7, sizeof table);
    return is_answer(planner_build_table(file, strlen(text), table, length, 2), reads, writes)
        && holds(table, length, entries, length, 0)
        && is_answer(planner_check_table(file, strlen(text), entries, length, 2), reads, writes);
}

/* Puts the last position's value into the first, of sixteen. */
static const char last_to_first[] =
    "positions=16\nsizes=2,2,2,2,2,2,2,2,2,2,2,2,2,2,2,2\nrules=1\n"
    "cost=1\nif=x1,x2,x3,x4,x5,x6,x7,x8,x9,x10,x11,x12,x13,x14,x15,x16\n"
    "then=x16,x2,x3,x4,x5,x6,x7,x8,x9,x10,x11,x12,x13,x14,x15,x16\n";

static void positions(void)
{
    static const char first_to_last[] =
        "positions=16\nsizes=2,2,2,2,2,2,2,2,2,2,2,2,2,2,2,2\nrules=1\n"
        "cost=1\nif=x1,x2,x3,x4,x5,x6,x7,x8,x9,x10,x11,x12,x13,x14,x15,x16\n"
        "then=x1,x2,x3,x4,x5,x6,x7,x8,x9,x10,x11,x12,x13,x14,x15,x1\n";
    /* both rules need 0 at position 1 and leave 1 there: no state admits two */
    static const char once_only[] =
        "positions=2\nsizes=2,2\nrules=2\ncost=1\nif=0,x2\nthen=1,x2\ncost=1\nif=0,x2\nthen=1,0\n";
    /* drop=1,1 for=1 */
    static const uint8_t twice_as_once[] = {255, 255, 255, 255, 1, 0};
    /* drop=1,1 to drop=2,2, for= */
    static const uint8_t no_pair[] = {255, 255, 255, 255, 255, 255, 0, 0, 0, 0, 0, 0, 0, 0};
    expect("position 16 read, 1 written", builds(last_to_first, twice_as_once, sizeof twice_as_once, 0x8000, 1));
    expect("position 1 read, 16 written", builds(first_to_last, twice_as_once, sizeof twice_as_once, 1, 0x8000));
    expect("marks of sequences that no state admits", builds(once_only, no_pair, sizeof no_pair, 0, 0));
    expect("planner_reads", planner_reads(0x123456789abcdef0) == 0x9abc);
    expect("planner_writes", planner_writes(0x123456789abcdef0) == 0x5678);
}

static void macros(void)
{
    /* both rules: x1,x2 to 0,0, at cost 2; no position is read, both are written */
    static const uint8_t whole[PLANNER_MACRO_SIZE] = {[0] = 16, [1] = 17, [32] = 2, [36] = 3};
    static const uint8_t both[] = {1, 2}, unknown[] = {1, 3}, twice[] = {1, 1};
    /* position 16 is read, in the high byte, and 1 is written */
    static const uint8_t copied[PLANNER_MACRO_SIZE] = {
        16, 17, 18, 19, 20, 21, 22, 23, 24, 25, 26, 27, 28, 29, 30, 31,
        31, 17, 18, 19, 20, 21, 22, 23, 24, 25, 26, 27, 28, 29, 30, 31, 2, 0, 0, 0x80, 1, 0};
    /* runs from 0 alone, to 1 */
    static const uint8_t once[] = "positions=1\nsizes=2\nrules=1\ncost=1\nif=0\nthen=1\n";
    /* position 1 has size 1, rule 1 puts 1 into position 2; the macro of no moves, and that of rule 1 */
    static const uint8_t single[] = "positions=2\nsizes=1,2\nrules=1\ncost=1\nif=0,x2\nthen=0,1\n";
    static const uint8_t of_none[PLANNER_MACRO_SIZE] = {[1] = 17, [17] = 17};
    static const uint8_t of_one[PLANNER_MACRO_SIZE] = {[1] = 17, [17] = 1, [32] = 1, [36] = 2};
    uint8_t out[40];
    memset(out, 7, sizeof out);
    uint8_t outcome = planner_macro(rules, RULES_LENGTH, both, 2, out, sizeof out);
    expect("planner_macro", outcome == PLANNER_OK && holds(out, sizeof out, whole, sizeof whole, 0));
    memset(out, 7, sizeof out);
    outcome = planner_macro(rules, RULES_LENGTH, both, 2, out, 38);
    expect("planner_macro into 38", outcome == PLANNER_OK && holds(out, 38, whole, sizeof whole, 0) && out[38] == 7);
    expect("PLANNER_MACRO_SIZE", PLANNER_MACRO_SIZE == 38);
    memset(out, 7, sizeof out);
    outcome = planner_macro(rules, RULES_LENGTH, both, 2, out, 37);
    expect("planner_macro into 37", outcome == PLANNER_SHORT_TEXT_BUFFER && holds(out, 37, NULL, 0, 0) && out[37] == 7);
    outcome = planner_macro((const uint8_t *)last_to_first, sizeof last_to_first - 1, twice, 2, out, sizeof out);
    expect("planner_macro of a copy", outcome == PLANNER_OK && holds(out, sizeof out, copied, sizeof copied, 0));
    outcome = planner_macro(rules, RULES_LENGTH, unknown, 2, out, sizeof out);
    expect("planner_macro of rule 3", outcome == PLANNER_UNKNOWN_MOVE && holds(out, sizeof out, NULL, 0, 0));
    outcome = planner_macro(once, sizeof once - 1, twice, 2, out, sizeof out);
    expect("planner_macro of no state", outcome == PLANNER_NOT_ADMITTED && holds(out, sizeof out, NULL, 0, 0));
    outcome = planner_macro(single, sizeof single - 1, twice, 0, out, sizeof out);
    expect("no moves at size 1", outcome == PLANNER_OK && holds(out, sizeof out, of_none, sizeof of_none, 0));
    outcome = planner_macro(single, sizeof single - 1, twice, 1, out, sizeof out);
    expect("a move at size 1", outcome == PLANNER_OK && holds(out, sizeof out, of_one, sizeof of_one, 0));
}

/* The answer of a search of E from 1,1 with these bounds. */
static uint64_t search_e(const uint8_t *goal, size_t goal_length, uint8_t *plan, size_t plan_length, size_t max_moves,
                         uint16_t max_cost)
{
    static const uint8_t start[] = {1, 1};
    return planner_search(rules, RULES_LENGTH, marks, sizeof marks, start, sizeof start, goal, goal_length,
                          plan, plan_length, 2, max_moves, max_cost, 4);
}

static void searches(void)
{
    static const uint8_t goal[] = {0, 0}, any[] = {PLANNER_ANY, 0}, plan_of_p1[] = {1, 2}, plan_of_any[] = {2};
    uint8_t plan[5];
    memset(plan, 7, sizeof plan);
    uint64_t answer = search_e(goal, 2, plan, sizeof plan, 3, 9);
    expect("planner_search", planner_outcome(answer) == PLANNER_OK);
    expect("the length", planner_length(answer) == 2);
    expect("the cost", planner_cost(answer) == 2);
    expect("the steps", planner_steps(answer) == 4);
    expect("the plan", holds(plan, sizeof plan, plan_of_p1, 2, PLANNER_ANY));
    answer = search_e(any, 2, plan, sizeof plan, 3, 9);
    expect("planner_search for any value", planner_outcome(answer) == PLANNER_OK && planner_cost(answer) == 1);
    expect("the plan for any value", holds(plan, sizeof plan, plan_of_any, 1, PLANNER_ANY));
    answer = search_e(goal, 2, plan, sizeof plan, 3, 1);
    expect("planner_search within cost 1", planner_outcome(answer) == PLANNER_NO_PLAN && planner_steps(answer) == 3);
    expect("no length and no cost", planner_length(answer) == 0 && planner_cost(answer) == 0);
    expect("the plan buffer without a plan", holds(plan, sizeof plan, NULL, 0, PLANNER_ANY));
    expect("planner_search of 6 moves", search_e(goal, 2, plan, sizeof plan, 6, 9) == PLANNER_SHORT_PLAN_BUFFER);
    expect("planner_search with a short goal", search_e(goal, 1, plan, sizeof plan, 3, 9) == PLANNER_BAD_GOAL);
    answer = planner_search(rules, RULES_LENGTH, marks, sizeof marks, goal, 1, goal, 2, plan, sizeof plan, 2, 3, 9, 4);
    expect("planner_search with a short start", answer == PLANNER_BAD_START);
    answer = planner_search(rules, RULES_LENGTH, marks, sizeof marks, goal, 2, goal, 2, plan, sizeof plan, 2, 3, 9, 0);
    expect("planner_search of no steps", answer == PLANNER_STEP_LIMIT);
}

/* What both entries of a search take, but for the plan buffer. */
struct search {
    const char *file;
    const uint8_t *table, *start, *goal;
    size_t table_length, start_length, goal_length;
    size_t reach, max_moves;
    uint16_t max_cost;
    uint32_t step_limit;
};

static uint64_t search(const struct search *asked, uint8_t *plan, size_t plan_length)
{
    return planner_search((const uint8_t *)asked->file, strlen(asked->file), asked->table, asked->table_length,
                          asked->start, asked->start_length, asked->goal, asked->goal_length, plan, plan_length,
                          asked->reach, asked->max_moves, asked->max_cost, asked->step_limit);
}

static uint16_t search_floor(const struct search *asked, uint8_t *plan, size_t plan_length)
{
    return planner_search_floor((const uint8_t *)asked->file, strlen(asked->file), asked->table, asked->table_length,
                                asked->start, asked->start_length, asked->goal, asked->goal_length, plan, plan_length,
                                asked->reach, asked->max_moves, asked->max_cost, asked->step_limit);
}

/* Whether one entry gives this answer and the other this floor, and both leave these moves in a buffer of four bytes,
 * and the byte after it as it was. */
static bool gives(const struct search *asked, uint64_t answer, uint16_t floor, const uint8_t *moves, size_t length)
{
    uint8_t plan[5] = {7, 7, 7, 7, 7}, again[5] = {7, 7, 7, 7, 7};
    return search(asked, plan, 4) == answer && holds(plan, 4, moves, length, PLANNER_ANY) && plan[4] == 7
        && search_floor(asked, again, 4) == floor && memcmp(again, plan, sizeof plan) == 0;
}

/* Whether both entries refuse a search: the outcome alone, no floor, and no plan. */
static bool refuses(const struct search *asked, uint8_t outcome)
{
    return gives(asked, outcome, 0, NULL, 0);
}

/* An answer in one number. */
static uint64_t packed(uint8_t outcome, uint8_t length, uint16_t cost, uint32_t steps)
{
    return outcome | (uint64_t)length << 8 | (uint64_t)cost << 16 | (uint64_t)steps << 32;
}

/* Document 01's P2, with one step more and fewer, within a cost that has no plan, and refused: each cause comes before
 * the one that was there already. */
static void floors(void)
{
    static const uint8_t start[] = {1, 1}, goal[] = {0, 0}, zeros[sizeof marks], both[] = {1, 2};
    struct search asked = {
        .file = (const char *)rules, .table = marks, .table_length = sizeof marks, .start = start, .start_length = 2,
        .goal = goal, .goal_length = 2, .reach = 2, .max_moves = 2, .max_cost = 9, .step_limit = 3};
    /* visited are the empty sequence, 1 and 1,2; 2 is left, at cost 1 */
    expect("P2", gives(&asked, packed(PLANNER_PLAN_AT_LIMIT, 2, 2, 3), 1, both, 2));
    asked.step_limit = 4;
    expect("P1", gives(&asked, packed(PLANNER_OK, 2, 2, 4), 0, both, 2));
    asked.max_cost = 1;
    expect("P4", gives(&asked, packed(PLANNER_NO_PLAN, 0, 0, 3), 0, NULL, 0));
    asked.step_limit = 2;
    expect("two steps", gives(&asked, packed(PLANNER_STEP_LIMIT, 0, 0, 2), 0, NULL, 0));
    asked.table = zeros;
    expect("the floor with a wrong table", refuses(&asked, PLANNER_TABLE_NOT_ACCEPTED));
    asked.max_moves = 5;
    expect("the floor with a short plan buffer", refuses(&asked, PLANNER_SHORT_PLAN_BUFFER));
    asked.max_moves = PLANNER_MAX_MOVES + 1;
    expect("the floor with too many moves", refuses(&asked, PLANNER_TOO_MANY_MOVES));
    asked.goal_length = 1;
    expect("the floor with a short goal", refuses(&asked, PLANNER_BAD_GOAL));
    asked.start_length = 1;
    expect("the floor with a short start", refuses(&asked, PLANNER_BAD_START));
    asked.table_length = 13;
    expect("the floor with a short table", refuses(&asked, PLANNER_BAD_TABLE_LENGTH));
    asked.reach = 4;
    expect("the floor at reach 4", refuses(&asked, PLANNER_BAD_REACH));
    asked.file = "";
    expect("the floor without a rule file", refuses(&asked, PLANNER_BAD_FORM));
}

/* Rule i puts 0 into position i; nothing is marked. */
static void floors_of_other_sets(void)
{
    static const char three[] =
        "positions=3\nsizes=2,2,2\nrules=3\ncost=3\nif=x1,x2,x3\nthen=0,x2,x3\n"
        "cost=2\nif=x1,x2,x3\nthen=x1,0,x3\ncost=1\nif=x1,x2,x3\nthen=x1,x2,0\n";
    static const char dear[] =
        "positions=2\nsizes=2,2\nrules=2\ncost=255\nif=x1,x2\nthen=0,x2\ncost=255\nif=x1,x2\nthen=x1,0\n";
    static const uint8_t kept[] = {255, 255, 255, 255, 255, 255, 255, 255}, start[] = {1, 1, 1}, goal[] = {0, 0};
    static const uint8_t first[] = {0, PLANNER_ANY, PLANNER_ANY}, any[] = {PLANNER_ANY, PLANNER_ANY, PLANNER_ANY};
    static const uint8_t one[] = {1}, both[] = {1, 2};
    struct search asked = {
        .file = three, .table = kept, .table_length = 8, .start = start, .start_length = 3, .goal = first,
        .goal_length = 3, .reach = 1, .max_moves = 2, .max_cost = 9, .step_limit = 2};
    /* visited are the empty sequence and 1; left are 1,1 to 1,3, 2 at cost 2 and 3 at cost 1 */
    expect("a plan at the limit", gives(&asked, packed(PLANNER_PLAN_AT_LIMIT, 1, 3, 2), 1, one, 1));
    asked.step_limit = 0;
    expect("no step", gives(&asked, packed(PLANNER_STEP_LIMIT, 0, 0, 0), 0, NULL, 0));
    asked.goal = any;
    asked.step_limit = 1;
    expect("an empty plan at the limit", gives(&asked, packed(PLANNER_PLAN_AT_LIMIT, 0, 0, 1), 0, NULL, 0));
    /* visited are the empty sequence, 1, 1,1 and 1,2, and 2 is left; then this too, and 2,1 and 2,2 are left */
    asked = (struct search){
        .file = dear, .table = kept, .table_length = 6, .start = start, .start_length = 2, .goal = goal,
        .goal_length = 2, .reach = 1, .max_moves = 2, .max_cost = 65535, .step_limit = 4};
    expect("a floor of one byte", gives(&asked, packed(PLANNER_PLAN_AT_LIMIT, 2, 510, 4), 255, both, 2));
    asked.step_limit = 5;
    expect("a floor of two bytes", gives(&asked, packed(PLANNER_PLAN_AT_LIMIT, 2, 510, 5), 510, both, 2));
}

/* The outcome of an explanation of these moves, for what a search takes. */
static uint8_t explain(const struct search *asked, const uint8_t *moves, size_t moves_length, uint8_t *out,
                       size_t out_length)
{
    return planner_explain((const uint8_t *)asked->file, strlen(asked->file), asked->table, asked->table_length,
                           asked->start, asked->start_length, asked->goal, asked->goal_length, moves, moves_length,
                           out, out_length, asked->reach, asked->max_moves, asked->max_cost, asked->step_limit);
}

/* Whether the outcome is this one with buffers of all lengths, which then hold these bytes and zeros after them, or
 * zeros alone if they are too short or the bytes are NULL; the byte after each stays as it was. */
static bool explains(const struct search *asked, const uint8_t *moves, size_t length, uint8_t outcome,
                     const uint8_t *bytes)
{
    static const size_t lengths[] = {0, 1, 18, 19, 40};
    uint8_t out[41];
    for (size_t at = 0; at < sizeof lengths / sizeof lengths[0]; at++) {
        bool fits = bytes != NULL && lengths[at] >= PLANNER_EXPLANATION_SIZE;
        memset(out, 7, sizeof out);
        if (explain(asked, moves, length, out, lengths[at]) != outcome
            || !holds(out, lengths[at], bytes, fits ? PLANNER_EXPLANATION_SIZE : 0, 0) || out[lengths[at]] != 7)
            return false;
    }
    return explain(asked, moves, length, NULL, 0) == outcome;
}

/* P1, then another goal and other bounds. An explanation begins with reason and place; the costs stand from byte 2 on,
 * the segment's end from 6, its length at 14, the witness's at 15, and the witness from 16. */
static void explanations(void)
{
    static const uint8_t start[] = {1, 1}, goal[] = {0, 0}, any[] = {PLANNER_ANY, PLANNER_ANY};
    static const uint8_t both[] = {1, 2}, turned[] = {2, 1}, three[] = {1, 2, 1};
    static const uint8_t plan[PLANNER_EXPLANATION_SIZE] = {PLANNER_IS_PLAN};
    /* 2,1 is marked for 1,2 */
    static const uint8_t later[PLANNER_EXPLANATION_SIZE] = {
        PLANNER_LATER, [6] = 2, [14] = 2, [15] = 2, [16] = 1, [17] = 2};
    static const uint8_t over_moves[PLANNER_EXPLANATION_SIZE] = {
        PLANNER_OVER_MOVES, [6] = 3, [14] = 2, [15] = 2, [16] = 1, [17] = 2};
    static const uint8_t off_1[PLANNER_EXPLANATION_SIZE] = {PLANNER_OFF_GOAL, 1};
    static const uint8_t off_2[PLANNER_EXPLANATION_SIZE] = {PLANNER_OFF_GOAL, 2};
    static const uint8_t dearer[PLANNER_EXPLANATION_SIZE] = {PLANNER_DEARER, [2] = 1};
    static const uint8_t over_cost[PLANNER_EXPLANATION_SIZE] = {PLANNER_OVER_COST, 2};
    static const uint8_t over_one_move[PLANNER_EXPLANATION_SIZE] = {PLANNER_OVER_MOVES};
    struct search asked = {
        .file = (const char *)rules, .table = marks, .table_length = sizeof marks, .start = start, .start_length = 2,
        .goal = goal, .goal_length = 2, .reach = 2, .max_moves = 2, .max_cost = 9, .step_limit = 4};
    expect("PLANNER_EXPLANATION_SIZE", PLANNER_EXPLANATION_SIZE == 19);
    expect("the plan proposed", explains(&asked, both, 2, PLANNER_OK, plan));
    expect("a later proposal", explains(&asked, turned, 2, PLANNER_OK, later));
    expect("a proposal over the move bound", explains(&asked, three, 3, PLANNER_OK, over_moves));
    expect("a proposal off the goal", explains(&asked, both, 1, PLANNER_OK, off_2));
    expect("no move proposed", explains(&asked, both, 0, PLANNER_OK, off_1));
    expect("no move proposed, by NULL", explains(&asked, NULL, 0, PLANNER_OK, off_1));
    asked.goal = any;
    expect("a dearer proposal", explains(&asked, both, 1, PLANNER_OK, dearer));
    asked.goal = goal;
    asked.max_cost = 1;
    expect("a proposal over the cost bound", explains(&asked, both, 2, PLANNER_NO_PLAN, over_cost));
    asked.max_moves = 1;
    expect("a proposal over one move", explains(&asked, both, 2, PLANNER_NO_PLAN, over_one_move));
}

/* Whether nothing is explained: the outcome, and no reason. */
static bool explains_nothing(const struct search *asked, const uint8_t *moves, size_t length, uint8_t outcome)
{
    uint8_t out[PLANNER_EXPLANATION_SIZE];
    return explains(asked, moves, length, outcome, NULL) && explain(asked, moves, length, out, sizeof out) == outcome
        && planner_reason(out) == PLANNER_NO_REASON;
}

/* Each cause comes before the one that was there already. No plan buffer is lent: 12 is not among them. */
static void explanations_refused(void)
{
    static const uint8_t start[] = {1, 1}, goal[] = {0, 0}, zeros[sizeof marks], both[] = {1, 2}, unknown[] = {1, 3};
    struct search asked = {
        .file = (const char *)rules, .table = marks, .table_length = sizeof marks, .start = start, .start_length = 2,
        .goal = goal, .goal_length = 2, .reach = 2, .max_moves = 2, .max_cost = 9, .step_limit = 2};
    expect("a proposal after two steps", explains_nothing(&asked, both, 2, PLANNER_STEP_LIMIT));
    asked.step_limit = 3;
    expect("the plan at the limit proposed", explains_nothing(&asked, both, 2, PLANNER_PLAN_AT_LIMIT));
    expect("rule 3 proposed", explains_nothing(&asked, unknown, 2, PLANNER_UNKNOWN_MOVE));
    expect("rule 0 proposed", explains_nothing(&asked, zeros, sizeof zeros, PLANNER_UNKNOWN_MOVE));
    asked.table = zeros;
    expect("a proposal with a wrong table", explains_nothing(&asked, unknown, 2, PLANNER_TABLE_NOT_ACCEPTED));
    asked.max_moves = PLANNER_MAX_MOVES + 1;
    expect("a proposal with too many moves", explains_nothing(&asked, unknown, 2, PLANNER_TOO_MANY_MOVES));
    asked.goal_length = 1;
    expect("a proposal with a short goal", explains_nothing(&asked, unknown, 2, PLANNER_BAD_GOAL));
    asked.start_length = 1;
    expect("a proposal with a short start", explains_nothing(&asked, unknown, 2, PLANNER_BAD_START));
    asked.table_length = 13;
    expect("a proposal with a short table", explains_nothing(&asked, unknown, 2, PLANNER_BAD_TABLE_LENGTH));
    asked.reach = 4;
    expect("a proposal at reach 4", explains_nothing(&asked, unknown, 2, PLANNER_BAD_REACH));
    asked.file = "";
    expect("a proposal without a rule file", explains_nothing(&asked, unknown, 2, PLANNER_BAD_FORM));
}

/* A move that fails, with a segment that no state admits; costs of two bytes; a search as deep as any; a segment whose
 * end has two bytes. */
static void explanations_of_other_sets(void)
{
    /* runs from 0 alone, to 1: 1,1 is marked for the empty sequence */
    static const char once[] = "positions=1\nsizes=2\nrules=1\ncost=1\nif=0\nthen=1\n";
    static const char dear[] =
        "positions=2\nsizes=2,2\nrules=2\ncost=255\nif=x1,x2\nthen=0,x2\ncost=255\nif=x1,x2\nthen=x1,0\n";
    static const uint8_t no_pair[] = {255, 255, 255, 255, 0, 0}, zero[] = {0}, one[] = {1}, twice[] = {1, 1};
    static const uint8_t kept[] = {255, 255, 255, 255, 255, 255}, start[] = {1, 1}, goal[] = {0, 0};
    /* nothing but 2,2 is marked, for 2 */
    static const uint8_t one_mark[sizeof marks] = {255, 255, 255, 255, 255, 255, 255, 255, 255, 255, 255, 255, 2, 0};
    static const uint8_t fails[PLANNER_EXPLANATION_SIZE] = {PLANNER_CANNOT_RUN, 2, [6] = 2, [14] = 2};
    /* 765 and 510 */
    static const uint8_t dearer[PLANNER_EXPLANATION_SIZE] = {PLANNER_DEARER, [2] = 253, [3] = 2, [4] = 254, [5] = 1};
    /* moves 299 and 300 */
    static const uint8_t far[PLANNER_EXPLANATION_SIZE] = {
        PLANNER_OVER_MOVES, [6] = 44, [7] = 1, [14] = 2, [15] = 1, [16] = 2};
    static uint8_t moves[300];
    struct search asked = {
        .file = once, .table = no_pair, .table_length = sizeof no_pair, .start = zero, .start_length = 1, .goal = one,
        .goal_length = 1, .reach = 2, .max_moves = 2, .max_cost = 9, .step_limit = 4};
    expect("a proposal that cannot be run", explains(&asked, twice, 2, PLANNER_OK, fails));
    asked = (struct search){
        .file = dear, .table = kept, .table_length = sizeof kept, .start = start, .start_length = 2, .goal = goal,
        .goal_length = 2, .reach = 1, .max_moves = 3, .max_cost = 65535, .step_limit = 15};
    memset(moves, 1, sizeof moves);
    moves[1] = 2;
    expect("costs of two bytes", explains(&asked, moves, 3, PLANNER_OK, dearer));
    /* visited are 1 up to thirty-two times, then thirty-one times with 2 after it, which is a plan */
    asked.max_moves = PLANNER_MAX_MOVES;
    asked.step_limit = 40;
    expect("a proposal after 32 moves", explains_nothing(&asked, moves, 3, PLANNER_PLAN_AT_LIMIT));
    asked = (struct search){
        .file = (const char *)rules, .table = one_mark, .table_length = sizeof one_mark, .start = start,
        .start_length = 2, .goal = goal, .goal_length = 2, .reach = 2, .max_moves = 2, .max_cost = 9, .step_limit = 6};
    moves[1] = 1;
    moves[298] = moves[299] = 2;
    expect("a segment far on", explains(&asked, moves, sizeof moves, PLANNER_OK, far));
}

/* Each helper takes its own bytes, low byte first. */
static void parts_of_an_explanation(void)
{
    uint8_t bytes[PLANNER_EXPLANATION_SIZE];
    for (size_t at = 0; at < sizeof bytes; at++)
        bytes[at] = (uint8_t)(0xe0 + at);
    expect("planner_reason", planner_reason(bytes) == 0xe0);
    expect("planner_place", planner_place(bytes) == 0xe1);
    expect("planner_proposal_cost", planner_proposal_cost(bytes) == 0xe3e2);
    expect("planner_plan_cost", planner_plan_cost(bytes) == 0xe5e4);
    expect("planner_segment_end", planner_segment_end(bytes) == 0xedecebeae9e8e7e6);
    expect("planner_segment_length", planner_segment_length(bytes) == 0xee);
    expect("planner_witness_length", planner_witness_length(bytes) == 0xef);
    expect("planner_witness", planner_witness(bytes) == bytes + 16);
}

/* The outcome of a rule file with one rule and one position, of this size and cost; its front says so many rules. */
static uint8_t read_small(int size, int rule_count, int cost)
{
    char text[90];
    int length = snprintf(text, sizeof text, "positions=1\nsizes=%d\nrules=%d\ncost=%d\nif=x1\nthen=0\n", size,
                          rule_count, cost);
    return planner_read((const uint8_t *)text, (size_t)length);
}

/* The names of the header for the numbers of a rule file: each is read, and the next refused. A file of one rule that
 * says the most of them ends early. Size 1 is read, and the variable refused there; size 0 is not. */
static void numbers_of_files(void)
{
    expect("PLANNER_MAX_SIZE", read_small(PLANNER_MAX_SIZE, 1, 1) == PLANNER_OK);
    expect("above PLANNER_MAX_SIZE", read_small(PLANNER_MAX_SIZE + 1, 1, 1) == PLANNER_OUTSIDE_LIMIT);
    expect("a variable at size 1", read_small(1, 1, 1) == PLANNER_MISPLACED_VARIABLE);
    expect("size 0", read_small(0, 1, 1) == PLANNER_OUTSIDE_LIMIT);
    expect("PLANNER_MAX_RULES", read_small(2, PLANNER_MAX_RULES, 1) == PLANNER_BAD_FORM);
    expect("above PLANNER_MAX_RULES", read_small(2, PLANNER_MAX_RULES + 1, 1) == PLANNER_OUTSIDE_LIMIT);
    expect("PLANNER_MAX_RULE_COST", read_small(2, 1, PLANNER_MAX_RULE_COST) == PLANNER_OK);
    expect("above PLANNER_MAX_RULE_COST", read_small(2, 1, PLANNER_MAX_RULE_COST + 1) == PLANNER_OUTSIDE_LIMIT);
}

/* Bytes of the table of so many rules for this reach, as the header says: 2 * (1 + M + .. + M^L). */
static uint64_t table_bytes(uint64_t rule_count, int reach)
{
    uint64_t sequences = 1;
    for (int length = 0; length < reach; length++)
        sequences = 1 + rule_count * sequences;
    return 2 * sequences;
}

/* Writes the longest rule file: 31 rules of cost 255, every entry as long as it can be. Gives its length. */
static size_t write_longest(char text[PLANNER_MAX_FILE + 2])
{
    char *at = text;
    at += sprintf(at, "positions=%d\nsizes=16", PLANNER_MAX_POSITIONS);
    for (int position = 2; position <= PLANNER_MAX_POSITIONS; position++)
        at += sprintf(at, ",16");
    at += sprintf(at, "\nrules=31\n");
    for (int rule = 0; rule < 31; rule++) {
        at += sprintf(at, "cost=255\nif=x1");
        for (int position = 2; position <= PLANNER_MAX_POSITIONS; position++)
            at += sprintf(at, ",x%d", position);
        at += sprintf(at, "\nthen=x%d,x%d", 10 + rule / 7, 10 + rule % 7);
        for (int position = 3; position <= PLANNER_MAX_POSITIONS; position++)
            at += sprintf(at, ",x16");
        at += sprintf(at, "\n");
    }
    return (size_t)(at - text);
}

/* The names of the header for the largest of each kind. */
static void limits(void)
{
    static char text[PLANNER_MAX_FILE + 2];
    const uint8_t *longest = (const uint8_t *)text;
    size_t length = write_longest(text);
    expect("PLANNER_MAX_FILE", length == PLANNER_MAX_FILE && planner_read(longest, length) == PLANNER_OK);
    uint64_t size = planner_table_size(longest, length, PLANNER_MAX_REACH);
    expect("PLANNER_MAX_REACH", planner_outcome(size) == PLANNER_OK);
    expect("PLANNER_MAX_TABLE", planner_size(size) == PLANNER_MAX_TABLE);
    expect("the bytes of a table", table_bytes(PLANNER_MAX_RULES, PLANNER_MAX_REACH) == PLANNER_MAX_TABLE);
    size = planner_table_size(longest, length, PLANNER_MAX_REACH + 1);
    expect("a reach above PLANNER_MAX_REACH", size == PLANNER_BAD_REACH);
    text[length] = 'x';
    expect("a file above PLANNER_MAX_FILE", planner_read(longest, length + 1) == PLANNER_BAD_FORM);

    static const uint8_t goal[] = {0, 0};
    uint8_t plan[PLANNER_MAX_MOVES];
    uint64_t answer = search_e(goal, 2, plan, sizeof plan, PLANNER_MAX_MOVES, 9);
    expect("PLANNER_MAX_MOVES", planner_outcome(answer) == PLANNER_OK);
    answer = search_e(goal, 2, plan, sizeof plan, PLANNER_MAX_MOVES + 1, 9);
    expect("more than PLANNER_MAX_MOVES", answer == PLANNER_TOO_MANY_MOVES);
}

/* The version's numbers and its text agree. */
static void version(void)
{
    char text[16];
    snprintf(text, sizeof text, "%d.%d", PLANNER_VERSION_MAJOR, PLANNER_VERSION_MINOR);
    expect("PLANNER_VERSION", strcmp(text, PLANNER_VERSION) == 0);
}

static void *all(void *unused)
{
    expect("the length of E", RULES_LENGTH == 82);
    /* no entry gives it */
    expect("PLANNER_INVALID_RULE_SET", PLANNER_INVALID_RULE_SET == 7);
    files();
    tables();
    positions();
    macros();
    searches();
    floors();
    floors_of_other_sets();
    explanations();
    explanations_refused();
    explanations_of_other_sets();
    parts_of_an_explanation();
    numbers_of_files();
    limits();
    version();
    return unused;
}

/* All calls are made by a thread that has PLANNER_STACK bytes of stack for them, and some for this program's own. */
int main(void)
{
    enum { OWN_STACK = 65536 };
    pthread_attr_t attributes;
    pthread_t thread;
    expect("pthread_attr_init", pthread_attr_init(&attributes) == 0);
    expect("PLANNER_STACK", pthread_attr_setstacksize(&attributes, PLANNER_STACK + OWN_STACK) == 0);
    expect("pthread_create", pthread_create(&thread, &attributes, all, NULL) == 0);
    expect("pthread_join", pthread_join(thread, NULL) == 0);
    return 0;
}
