/* Searches for the cheapest plan and shows it, one move a line; over the step limit, the cheapest of the plans met and
 * what every plan within the bounds costs at least. On request appends the answer to a log, and shows why a proposal is
 * not the plan. Each answer is shown whole, and nothing of an earlier one. */
#include <errno.h>
#include <inttypes.h>
#include <stdbool.h>
#include <stdio.h>
#include <stdlib.h>
#include <string.h>
#include <time.h>

#include "common.h"
#include "log.h"
#include "options.h"
#include "planner.h"
#include "query.h"
#include "why.h"

const char program[] = "plan";

enum { DEFAULT_REACH = 2, DEFAULT_MOVES = 10, DEFAULT_COST = UINT16_MAX, DEFAULT_STEPS = 100000000 };

/* A query with the names of its files, where to log it, NULL for nowhere, and whether a proposal is to be explained. */
struct request {
    const char *rules;
    const char *table;
    const char *log;
    bool explains;
    struct query query;
};

/* The answer of a search, its plan, and its floor: what every plan within the bounds costs at least where this one need
 * not be the cheapest, else 0. */
struct result {
    uint64_t answer;
    uint8_t plan[PLANNER_MAX_MOVES];
    uint16_t floor;
};

static void show_help(void)
{
    printf("usage: plan RULES TABLE START GOAL [--reach N] [--moves N] [--cost N] [--steps N] [--log FILE]\n"
           "            [--why MOVES]\n"
           "Shows the cheapest plan from START to GOAL: cost, length, steps and the rule numbers, one a line.\n"
           "  RULES       a rule file, of at most %d bytes; of a longer file the first %d are judged\n"
           "  TABLE       its pruning table, a file; or the word build, to build it (a file of that name: ./build).\n"
           "              A table has at most %d bytes, and a longer file is not read to its end\n"
           "  START       a value for each position, a comma list\n"
           "  GOAL        likewise; any, * or %d for any value\n"
           "  --reach N   the reach of the table, 1 to %d; default %d\n"
           "  --moves N   the most moves, 0 to %d; default %d\n"
           "  --cost N    the most cost, 0 to %d; default %d\n"
           "  --steps N   the step limit: the most sequences to visit, 0 to %" PRIu32 "; default %d\n"
           "  --log FILE  append the answer and the rule file to FILE, under a lock, whole or not at all; SIGKILL\n"
           "              or a power cut may leave a part, after which nothing is appended\n"
           "  --why MOVES say as well why a proposal is not the plan: a comma list of rule numbers, any number of\n"
           "              them; --why= or --why '' for the proposal without a move\n"
           "  --help      show this and do nothing else\n"
           "  --version   show the version and do nothing else\n",
           PLANNER_MAX_FILE, MOST_OF_RULES, PLANNER_MAX_TABLE, PLANNER_ANY, PLANNER_MAX_REACH, DEFAULT_REACH,
           PLANNER_MAX_MOVES, DEFAULT_MOVES, UINT16_MAX, DEFAULT_COST, UINT32_MAX, DEFAULT_STEPS);
    printf("Options may stand anywhere and be written --moves=12; -- ends them. Numbers are in base ten.\n"
           "A value that begins with -- is written in this way only. Of an option given twice the last counts.\n"
           "With more sequences to visit than the step limit it shows the cheapest of the plans met, if any: it need\n"
           "not be the cheapest of all, and 'at least N' says that no plan within the bounds costs less than N.\n"
           "With --why the reason follows, the first that holds of the whole proposal: it is over the move bound,\n"
           "cannot be run, passes the cost bound, ends off the goal, costs more than the plan, costs as much and\n"
           "comes later in the order (fewer moves first, at equal length the smaller rule number at the first\n"
           "difference), is the plan. Moves and positions count from 1. Where the table marks a segment of the\n"
           "proposal, neighbouring moves, there follow the one that ends soonest, at equal end the shorter, and its\n"
           "witness: an earlier sequence that leads to the same state wherever the segment runs, at no more cost.\n"
           "Above the step limit the search is not finished, and nothing is explained. An explanation is not logged.\n"
           "Exit status: 0 the cheapest plan, 1 another outcome, a plan that need not be the cheapest included,\n"
           "2 a bad argument or a file that could not be read or written. With --why 0 needs as well that the\n"
           "proposal is explained, whatever the reason; a plan beside a proposal that is not explained is 1.\n");
}

/* One value of a list. */
static uint8_t value_of(const char *subject, const char *item, bool any_allowed)
{
    if (any_allowed && (strcmp(item, "any") == 0 || strcmp(item, "*") == 0))
        return PLANNER_ANY;
    return (uint8_t)number(subject, item, UINT8_MAX);
}

/* The values of a comma list. */
static struct bytes values_of(const char *subject, const char *text, bool any_allowed)
{
    size_t size = strlen(text) + 1;
    struct bytes values = {.at = allocate(size)};
    char *items = allocate(size);
    memcpy(items, text, size);
    for (char *item = items; item != NULL;) {
        char *comma = strchr(item, ',');
        if (comma != NULL)
            *comma++ = '\0';
        values.at[values.length++] = value_of(subject, item, any_allowed);
        item = comma;
    }
    free(items);
    return values;
}

/* The moves of a proposal: a comma list, or nothing. */
static struct bytes moves_of(struct option option)
{
    if (option.value[0] == '\0')
        return (struct bytes){NULL, 0, false};
    return values_of(option.name, option.value, false);
}

/* The number of an option, or the one that it has when it is not given. */
static uint64_t number_of(struct option option, uint64_t most, uint64_t otherwise)
{
    return option.value == NULL ? otherwise : number(option.name, option.value, most);
}

/* Whether the table is to be built, and not read from a file. */
static bool builds_table(const struct request *request)
{
    return strcmp(request->table, "build") == 0;
}

/* The request of the command line, with every number as it was typed. */
static struct request read_request(int count, char **arguments)
{
    enum { REACH, MOVES, COST, STEPS, LOG, WHY, OPTIONS };
    struct option options[OPTIONS + 1] = {
        [REACH] = {"--reach", NULL}, [MOVES] = {"--moves", NULL}, [COST] = {"--cost", NULL},
        [STEPS] = {"--steps", NULL}, [LOG] = {"--log", NULL},     [WHY] = {"--why", NULL},
    };
    enum { RULES, TABLE, START, GOAL, OPERANDS };
    const char *operands[OPERANDS];
    struct syntax syntax = {show_help, "RULES, TABLE, START and GOAL are needed", OPERANDS, options};
    read_arguments(count, arguments, &syntax, operands);
    struct request request = {.rules = operands[RULES], .table = operands[TABLE], .log = options[LOG].value};
    request.query.reach = (size_t)number_of(options[REACH], SIZE_MAX, DEFAULT_REACH);
    request.query.max_moves = (size_t)number_of(options[MOVES], SIZE_MAX, DEFAULT_MOVES);
    request.query.max_cost = (uint16_t)number_of(options[COST], UINT16_MAX, DEFAULT_COST);
    request.query.step_limit = (uint32_t)number_of(options[STEPS], UINT32_MAX, DEFAULT_STEPS);
    request.query.start = values_of("START", operands[START], false);
    request.query.goal = values_of("GOAL", operands[GOAL], true);
    request.explains = options[WHY].value != NULL;
    if (request.explains)
        request.query.moves = moves_of(options[WHY]);
    return request;
}

/* Reads the files of a request, and then looks whether its log can be written. */
static void read_files(struct request *request)
{
    if (request->log != NULL) {
        keep_from_output(request->log);
        keep_apart(request->log, request->rules);
    }
    if (request->log != NULL && !builds_table(request))
        keep_apart(request->log, request->table);
    request->query.rules = read_file(request->rules, MOST_OF_RULES);
    if (!builds_table(request))
        request->query.table = read_file(request->table, MOST_OF_TABLE);
    if (request->log != NULL)
        check_log(request->log);
}

/* The floor of a query, by a search of its own that leaves the same plan. */
static uint16_t search_floor(const struct query *query, uint8_t plan[PLANNER_MAX_MOVES])
{
    return planner_search_floor(query->rules.at, query->rules.length, query->table.at, query->table.length,
                                query->start.at, query->start.length, query->goal.at, query->goal.length,
                                plan, PLANNER_MAX_MOVES, query->reach, query->max_moves, query->max_cost,
                                query->step_limit);
}

/* The planner's answer to a query; the floor is asked for only where there is one. */
static struct result search(const struct query *query)
{
    struct result result = {.floor = 0};
    result.answer = planner_search(query->rules.at, query->rules.length, query->table.at, query->table.length,
                                   query->start.at, query->start.length, query->goal.at, query->goal.length,
                                   result.plan, sizeof result.plan, query->reach, query->max_moves, query->max_cost,
                                   query->step_limit);
    if (planner_outcome(result.answer) == PLANNER_PLAN_AT_LIMIT)
        result.floor = search_floor(query, result.plan);
    return result;
}

/* The outcome of an answer in words. */
static void put_answer_words(FILE *out, const struct query *query, uint64_t answer)
{
    put_words(out, planner_outcome(answer), "plan found", query);
}

/* Shows what a plan costs, what every plan within the bounds costs at least where this one need not be the cheapest,
 * and its length. */
static void show_cost(const struct result *result)
{
    printf("cost %u\n", planner_cost(result->answer));
    if (planner_outcome(result->answer) == PLANNER_PLAN_AT_LIMIT)
        printf("at least %u\n", result->floor);
    printf("length %u\n", planner_length(result->answer));
}

/* Shows an answer: the plan of the two outcomes that have one, and of every other outcome nothing but the outcome and
 * the steps. */
static void show_result(const struct query *query, const struct result *result)
{
    uint64_t answer = result->answer;
    uint8_t outcome = planner_outcome(answer);
    printf("outcome %u: ", outcome);
    put_answer_words(stdout, query, answer);
    printf("\n");
    if (outcome == PLANNER_OK || outcome == PLANNER_PLAN_AT_LIMIT)
        show_cost(result);
    printf("steps %" PRIu32 "\n", planner_steps(answer));
    for (size_t at = 0; at < planner_length(answer); at++)
        printf("rule %u\n", result->plan[at]);
}

/* A line of the log with the name of a file. */
static void put_name(FILE *out, const char *key, const char *name)
{
    fprintf(out, "%s=", key);
    put_text(out, name, SIZE_MAX);
    fputc('\n', out);
}

/* A line of the log with a comma list. */
static void put_list(FILE *out, const char *key, const uint8_t *list, size_t length)
{
    fprintf(out, "%s=", key);
    for (size_t at = 0; at < length; at++)
        fprintf(out, "%s%u", at == 0 ? "" : ",", list[at]);
    fputc('\n', out);
}

/* The line of the log with the time, in UTC. */
static void put_time(FILE *out)
{
    char text[64] = "";
    time_t now = time(NULL);
    struct tm *utc = now == (time_t)-1 ? NULL : gmtime(&now);
    if (utc == NULL || strftime(text, sizeof text, "%Y-%m-%dT%H:%M:%SZ", utc) == 0)
        text[0] = '\0';
    fprintf(out, LOG_BEGIN "%s\n", text);
}

/* An entry of the log: lines, then as much of the rule file as was read, which is as long as the last of them says, and
 * a line feed. */
static void put_entry(FILE *out, const struct request *request, const struct result *result)
{
    const struct query *query = &request->query;
    uint64_t answer = result->answer;
    put_time(out);
    put_name(out, "rules", request->rules);
    put_name(out, "table", request->table);
    put_list(out, "start", query->start.at, query->start.length);
    put_list(out, "goal", query->goal.at, query->goal.length);
    fprintf(out, "reach=%zu\nmax_moves=%zu\nmax_cost=%u\n", query->reach, query->max_moves, query->max_cost);
    fprintf(out, "step_limit=%" PRIu32 "\n", query->step_limit);
    fprintf(out, "outcome=%u\nwords=", planner_outcome(answer));
    put_answer_words(out, query, answer);
    fprintf(out, "\ncost=%u\nlength=%u\n", planner_cost(answer), planner_length(answer));
    fprintf(out, "steps=%" PRIu32 "\nfloor=%u\n", planner_steps(answer), result->floor);
    put_list(out, "plan", result->plan, planner_length(answer));
    fprintf(out, "rule_file=%s\nrule_bytes=%zu\n", query->rules.cut ? "cut" : "whole", query->rules.length);
    fwrite(query->rules.at, 1, query->rules.length, out);
    fputc('\n', out);
}

/* Appends an answer to the log, or says why it could not be done. */
static bool log_result(const struct request *request, const struct result *result)
{
    char *entry = NULL;
    size_t length = 0;
    FILE *out = open_memstream(&entry, &length);
    if (out == NULL)
        fail("memory", strerror(errno));
    put_entry(out, request, result);
    bool failed = ferror(out) != 0;
    if (fclose(out) != 0 || failed)
        fail("memory", strerror(ENOMEM));
    bool logged = append_entry(request->log, entry, length);
    free(entry);
    return logged;
}

/* Frees what a request has read. */
static void discard(struct query *query)
{
    free(query->rules.at);
    free(query->table.at);
    free(query->start.at);
    free(query->goal.at);
    free(query->moves.at);
}

int main(int count, char **arguments)
{
    begin();
    struct request request = read_request(count, arguments);
    read_files(&request);
    /* a table that cannot be built has the outcome that a search would have, with no cost, length or steps */
    uint64_t table = builds_table(&request) ? build_table(&request.query) : PLANNER_OK;
    struct result result = {.answer = planner_outcome(table)};
    if (result.answer == PLANNER_OK)
        result = search(&request.query);
    bool logged = request.log == NULL || log_result(&request, &result);
    show_result(&request.query, &result);
    uint8_t outcome = request.explains ? show_why(&request.query) : planner_outcome(result.answer);
    int status = finish(outcome);
    discard(&request.query);
    return logged ? status : STATUS_FAILED;
}
