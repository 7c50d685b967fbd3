/* What is asked of the planner, and what its outcome says of it. */
#ifndef QUERY_H
#define QUERY_H

#include <stdio.h>

#include "common.h"
#include "planner.h"

/* How much of a file is read. One byte more than any rule file has decides the outcome of every longer text, and one
 * byte more than any table has is no table's length: the planner says of these what it would say of the whole file. */
enum { MOST_OF_RULES = PLANNER_MAX_FILE + 1, MOST_OF_TABLE = PLANNER_MAX_TABLE + 1 };

/* A query, and the proposal of one that is to be explained. Of a table alone: its rules, table and reach. */
struct query {
    struct bytes rules;
    struct bytes table;
    struct bytes start;
    struct bytes goal;
    struct bytes moves;
    size_t reach;
    size_t max_moves;
    uint16_t max_cost;
    uint32_t step_limit;
};

/* Builds the table of the query's rules and reach, and gives planner_build_table's answer; where the table has no size,
 * the outcome for which it has none. */
uint64_t build_table(struct query *query);

/* An outcome in words, `success` for 0, and what in the query is its cause. */
void put_words(FILE *out, uint8_t outcome, const char *success, const struct query *query);

#endif
