/* The planner's C entries, in the static library libplanner.a (examples/library).
 *
 * Every byte argument is a pointer and then its length in bytes. What a caller owes to every entry, and nothing can
 * check:
 * - each pointer is to as many bytes as its length says; NULL only with length 0; a length of at most PTRDIFF_MAX;
 * - a buffer that is written (plan, table of a build, out) overlaps no other argument. Buffers that are only read may
 *   overlap each other, and never change;
 * - during the call no other thread writes any of the buffers, nor reads one that is written;
 * - PLANNER_STACK bytes of stack.
 * Nothing else is asked: any bytes, lengths and numbers end in an answer or in one numbered refusal, which
 * planner_search_floor leaves to planner_search to tell. But C cuts a number down to its parameter's type before the
 * call: a max_cost of 65545 arrives as 9, and is answered as 9.
 * Nothing is kept between calls: threads may call at the same time, each with its own buffers to write. */
#ifndef PLANNER_H
#define PLANNER_H

#include <stddef.h>
#include <stdint.h>

#ifdef __cplusplus
extern "C" {
#endif

/* The version of this header and of the library that it declares. The first number is raised when an entry changes,
 * the second when something is added or more is accepted: a program may refuse to be compiled with a header that it was
 * not written for, by #if PLANNER_VERSION_MAJOR != 3.
 * Since 3.2 there is planner_explain, with the reasons and the parts of an explanation; no other entry changed.
 * Since 3.1 a position may have size 1; its only value is 0. A file with one got 2 for it; now it is judged further,
 * and both lines of each rule must have 0 there. A macro has 0 there in condition and effect, that of no moves too; a
 * start has 0 there, a goal 0 or PLANNER_ANY.
 * Since 3.0 planner_search gives 18, with a plan that need not be the cheapest, to some queries that got 16 without
 * one: a program that was written for 2.1 has to know this outcome, and to call a plan the cheapest only at outcome 0.
 * planner_search_floor is new.
 * Since 2.1 two rules may have equal if and then lines where their costs differ: such a file, which got 4, is read.
 * Since 2.0 planner_build_table and planner_check_table give a packed answer: a program that was written for 1.0 has
 * to compare planner_outcome of it, for an accepted table can have other bits set; and a macro has 38 bytes, not 34. */
#define PLANNER_VERSION_MAJOR 3
#define PLANNER_VERSION_MINOR 2
#define PLANNER_VERSION "3.2"

/* What a call needs of the stack, in bytes. */
#define PLANNER_STACK 262144

/* The most positions of a rule file, the largest size of a position, the most rules, and the most that a rule costs. */
#define PLANNER_MAX_POSITIONS 16
#define PLANNER_MAX_SIZE 16
#define PLANNER_MAX_RULES 31
#define PLANNER_MAX_RULE_COST 255

/* The longest rule file, in bytes. Of a longer text the first PLANNER_MAX_FILE + 1 bytes have its outcome. */
#define PLANNER_MAX_FILE 4292

/* The largest reach. */
#define PLANNER_MAX_REACH 3

/* The longest table, in bytes: PLANNER_MAX_RULES rules, PLANNER_MAX_REACH. */
#define PLANNER_MAX_TABLE 61568

/* The most moves of a query: a plan buffer of this size is long enough for every query that is not refused. */
#define PLANNER_MAX_MOVES 32

/* Outcomes. Each call gives the first whose cause holds, in the order given with it. '1 to 4' is, within it: 1, 2 and 3
 * in text order, whichever cause stands first in the file, then 4. */
enum planner_outcome {
    PLANNER_OK = 0,                  /* not refused; of a search: the cheapest plan */
    PLANNER_BAD_FORM = 1,            /* rule file: a byte does not fit, the file ends early, or bytes are left over */
    PLANNER_OUTSIDE_LIMIT = 2,       /* rule file: a well-formed number outside its limit */
    PLANNER_MISPLACED_VARIABLE = 3,  /* rule file: a variable out of place */
    PLANNER_DUPLICATE_RULES = 4,     /* rule file: two rules with equal cost, if and then lines */
    PLANNER_BAD_REACH = 5,           /* the reach is not 1 to PLANNER_MAX_REACH */
    PLANNER_BAD_TABLE_LENGTH = 6,    /* the table's length is not planner_table_size's */
    PLANNER_INVALID_RULE_SET = 7,    /* no entry gives it: a set that was read is valid */
    PLANNER_SHORT_TEXT_BUFFER = 8,   /* the buffer is shorter than the file, or than a macro */
    PLANNER_BAD_START = 9,           /* the start has a wrong length or a value not below its size */
    PLANNER_BAD_GOAL = 10,           /* the goal likewise, save PLANNER_ANY */
    PLANNER_TOO_MANY_MOVES = 11,     /* more than PLANNER_MAX_MOVES moves */
    PLANNER_SHORT_PLAN_BUFFER = 12,  /* the plan buffer is shorter than the move bound */
    PLANNER_UNKNOWN_MOVE = 13,       /* a move that is no rule's number */
    PLANNER_TABLE_NOT_ACCEPTED = 14, /* a mark of the table is not justified */
    PLANNER_NO_PLAN = 15,            /* no rule sequence leads to the goal within both bounds */
    PLANNER_STEP_LIMIT = 16,         /* more sequences to visit than the step limit, and no plan among those visited */
    PLANNER_NOT_ADMITTED = 17,       /* no state admits the sequence */
    PLANNER_PLAN_AT_LIMIT = 18       /* as 16, but with a plan among those visited: it need not be the cheapest */
};

/* Reasons why a proposal is not the plan. Each is asked of the whole proposal before the next, and the first that holds
 * is given: one whose first move passes the cost bound and whose third cannot be run has PLANNER_CANNOT_RUN, place 3.
 * Moves and positions count from 1. With outcome 15 the reason is one of 1 to 4. */
enum planner_reason {
    PLANNER_NO_REASON = 0,  /* nothing is explained */
    PLANNER_OVER_MOVES = 1, /* it has more moves than the move bound */
    PLANNER_CANNOT_RUN = 2, /* it cannot be run from the start; place: the first move that fails */
    PLANNER_OVER_COST = 3,  /* it passes the cost bound; place: the first move at which the sum is above it */
    PLANNER_OFF_GOAL = 4,   /* it ends off the goal; place: the lowest position that has not the value asked */
    PLANNER_DEARER = 5,     /* it costs more than the plan; both costs are told */
    PLANNER_LATER = 6,      /* as cheap as the plan; more moves, or the larger rule number at the first difference */
    PLANNER_IS_PLAN = 7     /* it is the plan */
};

/* Any value, in a goal. Also every byte of a plan buffer that holds no move. */
#define PLANNER_ANY 255

/* An entry of a table: two bytes, low byte first. This one keeps its sequence; another marks it and is its witness's
 * index. The entries stand in the order of their sequences' indices: 0 is the empty sequence's, and with M rules the
 * sequence r1,r2,r3 has the index (r1 * M + r2) * M + r3, r1,r2 has r1 * M + r2, r1 has r1. A table of reach L has
 * 2 * (1 + M + .. + M^L) bytes. */
#define PLANNER_KEPT 65535

/* The bytes of a macro: condition 16, effect 16, cost 2, positions read 2, positions written 2, each low byte first. An
 * entry below 16 is that constant; 16 + k is the variable of position k + 1. Entries past the last position are 0.
 * A set of positions has 16 bits, the lowest for position 1. By its macro a sequence
 * - reads the positions whose condition entry is a constant or another position's variable, and those whose variable is
 *   another position's condition or effect entry: it asks what they hold, or puts that elsewhere;
 * - writes the positions whose effect entry differs from their condition entry: from some state it changes them.
 * A position's own effect entry plays no part in what is read: x1 to 0 writes position 1 and reads none. A sequence is
 * taken as a whole: what it sets itself before it asks is not read, and what it puts back is not written. A position
 * of size 1 has 0 in condition and effect, and is in neither set. A sequence that no state admits reads and writes
 * nothing. */
#define PLANNER_MACRO_SIZE 38

/* The bytes of an explanation: reason 1, place 1, the proposal's cost 2, the plan's cost 2, the segment's end 8, its
 * length 1, the witness's length 1, witness 3, each number low byte first. What there is not is 0: the place but with
 * reasons 2, 3 and 4; both costs but with reason 5; end, length and witness where no segment is marked; and what is
 * left of the 3 bytes after the witness. */
#define PLANNER_EXPLANATION_SIZE 19

/* Searches for the cheapest plan from the start to the goal.
 * Takes a rule file; its table for this reach, built or from anywhere; a start and a goal with one byte for each
 * position, PLANNER_ANY in the goal for any value; a plan buffer of at least max_moves bytes; the bounds on moves and
 * cost, and the most sequences to visit. To be visited are those that can be run from the start within both bounds and
 * have no marked segment: each before those that extend it by a rule, these by rule number, and all that extends one of
 * them before the next.
 * Outcomes, in this order: 1 to 4, 5, 6, 9, 10, 11, 12, 14, 18, 16, 15, 0.
 * - 0: the plan is the cheapest of all within the bounds; of equally cheap ones it has the fewest moves, and of these
 *   the smaller rule number at the first difference. No other outcome says of a plan that it is the cheapest.
 * - 15: no plan is within the bounds.
 * - 16: there are more sequences to visit than the step limit, and among the first of them, as many as the limit, there
 *   is no plan. Whether there is one at all is not known.
 * - 18: likewise, but with a plan among them: the cheapest of these, at equal cost chosen as for 0. It need not be the
 *   cheapest of all; planner_search_floor tells what every plan within the bounds costs at least.
 * With outcome 0 or 18 the plan's rule numbers, from 1, stand at the front of plan, one byte each, and every other byte
 * of it is PLANNER_ANY; with any other outcome every byte is PLANNER_ANY. A plan of no moves leaves the same: only the
 * outcome tells it from none.
 * The answer packs outcome, length, cost and steps: planner_outcome, planner_length, planner_cost and planner_steps
 * take it apart. Cost and length are 0 without a plan; the steps are the number of sequences visited for 0 and 15, the
 * step limit for 16 and 18, else 0. */
uint64_t planner_search(const uint8_t *rules, size_t rules_length, const uint8_t *table, size_t table_length,
                        const uint8_t *start, size_t start_length, const uint8_t *goal, size_t goal_length,
                        uint8_t *plan, size_t plan_length, size_t reach, size_t max_moves, uint16_t max_cost,
                        uint32_t step_limit);

/* The floor, where planner_search gives 18: no plan within the bounds costs less.
 * Takes what planner_search takes, searches as it does, and leaves the same in plan.
 * Gives the floor for outcome 18, and 0 for every other. A floor can be 0 as well, so that a 0 does not tell the
 * outcome: ask planner_search. The floor is the smaller of the cost of the plan shown and the least cost among the
 * sequences that were to be visited, were not, and extend a visited one by a single rule. Where it is the plan's cost,
 * no plan within the bounds is cheaper, though the outcome stays 18. */
uint16_t planner_search_floor(const uint8_t *rules, size_t rules_length, const uint8_t *table, size_t table_length,
                              const uint8_t *start, size_t start_length, const uint8_t *goal, size_t goal_length,
                              uint8_t *plan, size_t plan_length, size_t reach, size_t max_moves, uint16_t max_cost,
                              uint32_t step_limit);

/* Explains why a proposal is not the plan that planner_search shows.
 * Takes what planner_search takes, and searches as it does; in place of the plan buffer the proposal, moves: any number
 * of rule numbers, from 1, one byte each; and a buffer that is long enough with PLANNER_EXPLANATION_SIZE bytes.
 * Outcomes, in this order: 1 to 4, 5, 6, 9, 10, 11, 14, 13, 18, 16, 15, 0. But for 13 it is the outcome that
 * planner_search has with a plan buffer of PLANNER_MAX_MOVES bytes; 12 is never given.
 * With outcome 0 or 15 out holds the explanation's PLANNER_EXPLANATION_SIZE bytes and zeros after them, else zeros:
 * with 16 and 18, too, nothing is explained. A shorter out is filled with zeros, and the outcome is the same: with 0 or
 * 15 no other explanation has PLANNER_NO_REASON. 11 speaks of max_moves alone, not of the proposal.
 * planner_reason and the helpers that follow it take the explanation apart. The reason is PLANNER_IS_PLAN exactly if
 * planner_search, with a plan buffer of at least max_moves bytes, shows the proposal with outcome 0.
 * A segment is one or more neighbouring moves of the proposal. Where some are marked in the table, whatever the reason
 * and wherever they stand, the explanation has the one that ends soonest, at equal end the shorter: moves
 * end - length + 1 to end. Its witness is the table's: an earlier sequence, of 0 to PLANNER_MAX_REACH rule numbers,
 * which runs wherever the segment does, to the same state, at no more cost. The segment's length tells an empty witness
 * from none. The plan itself never has a marked segment. */
uint8_t planner_explain(const uint8_t *rules, size_t rules_length, const uint8_t *table, size_t table_length,
                        const uint8_t *start, size_t start_length, const uint8_t *goal, size_t goal_length,
                        const uint8_t *moves, size_t moves_length, uint8_t *out, size_t out_length, size_t reach,
                        size_t max_moves, uint16_t max_cost, uint32_t step_limit);

/* Judges a rule file, a text of any bytes and length. Outcomes: 1 to 4, 0. Writes nothing. */
uint8_t planner_read(const uint8_t *text, size_t text_length);

/* Reads a rule file and writes it again.
 * Takes the text, and a buffer that is long enough for every file with PLANNER_MAX_FILE bytes.
 * Outcomes, in this order: 1 to 4, 8, 0. With outcome 0 out holds the file and zeros after it, else zeros.
 * planner_outcome and planner_size take the answer apart; the size is the file's length in bytes, 0 when refused. */
uint64_t planner_rewrite(const uint8_t *text, size_t text_length, uint8_t *out, size_t out_length);

/* How long the table of a rule file is for this reach. Outcomes, in this order: 1 to 4, 5, 0. Writes nothing.
 * planner_outcome and planner_size take the answer apart; the size is in bytes, 0 when refused, at most
 * PLANNER_MAX_TABLE. */
uint64_t planner_table_size(const uint8_t *rules, size_t rules_length, size_t reach);

/* Builds the pruning table of a rule file for this reach.
 * Takes a buffer for the table, of exactly the bytes that planner_table_size says.
 * Outcomes, in this order: 1 to 4, 5, 6, 0. With outcome 0 the buffer holds the table, which is accepted, else
 * zeros. Of two rules with equal if and then lines the table marks the later one if it is the dearer; if it is the
 * cheaper, neither because of the other.
 * The answer packs the outcome, in the low byte, and the positions that the table's marked sequences read, in bits 16
 * to 31, and write, in bits 32 to 47; its other bits are 0. planner_outcome, planner_reads and planner_writes take it
 * apart. A position is in a set exactly if some marked sequence reads, or writes, it: a marked sequence that no state
 * admits adds nothing. Both sets are 0 when refused. */
uint64_t planner_build_table(const uint8_t *rules, size_t rules_length, uint8_t *table, size_t table_length,
                             size_t reach);

/* Checks a table for a rule file and this reach, whoever made it: outcome 0 exactly if each of its marks is justified.
 * Outcomes, in this order: 1 to 4, 5, 6, 14, 0. Writes nothing.
 * The answer is packed as planner_build_table's, with the positions that the marked sequences of this table read and
 * write; both sets are 0 when refused, 14 included. */
uint64_t planner_check_table(const uint8_t *rules, size_t rules_length, const uint8_t *table, size_t table_length,
                             size_t reach);

/* The macro of a sequence of at most PLANNER_MAX_MOVES rule numbers, from 1, one byte each, and the positions that it
 * reads and writes.
 * Outcomes, in this order: 1 to 4, 11, 13, 17, 8 (out is shorter than PLANNER_MACRO_SIZE), 0.
 * With outcome 0 out holds the macro's PLANNER_MACRO_SIZE bytes and zeros after them, else zeros. */
uint8_t planner_macro(const uint8_t *rules, size_t rules_length, const uint8_t *moves, size_t moves_length,
                      uint8_t *out, size_t out_length);

/* The parts of a search's answer, and the outcome of every other packed one. */
static inline uint8_t planner_outcome(uint64_t answer) { return (uint8_t)(answer & 0xff); }
static inline uint8_t planner_length(uint64_t answer) { return (uint8_t)(answer >> 8 & 0xff); }
static inline uint16_t planner_cost(uint64_t answer) { return (uint16_t)(answer >> 16 & 0xffff); }
static inline uint32_t planner_steps(uint64_t answer) { return (uint32_t)(answer >> 32); }

/* The size in the answer of planner_rewrite and planner_table_size. */
static inline uint64_t planner_size(uint64_t answer) { return answer >> 8; }

/* The positions read and written in the answer of planner_build_table and planner_check_table, lowest bit for position
 * 1. */
static inline uint16_t planner_reads(uint64_t answer) { return (uint16_t)(answer >> 16 & 0xffff); }
static inline uint16_t planner_writes(uint64_t answer) { return (uint16_t)(answer >> 32 & 0xffff); }

/* The parts of an explanation, a pointer to the PLANNER_EXPLANATION_SIZE bytes that planner_explain left. The witness
 * is a pointer to its rule numbers, as many as its length says. */
static inline uint8_t planner_reason(const uint8_t *explanation) { return explanation[0]; }
static inline uint8_t planner_place(const uint8_t *explanation) { return explanation[1]; }
static inline uint16_t planner_proposal_cost(const uint8_t *explanation)
{
    return (uint16_t)(explanation[2] | explanation[3] << 8);
}
static inline uint16_t planner_plan_cost(const uint8_t *explanation)
{
    return (uint16_t)(explanation[4] | explanation[5] << 8);
}
static inline uint64_t planner_segment_end(const uint8_t *explanation)
{
    uint64_t end = 0;
    for (int at = 13; at >= 6; at--)
        end = end << 8 | explanation[at];
    return end;
}
static inline uint8_t planner_segment_length(const uint8_t *explanation) { return explanation[14]; }
static inline uint8_t planner_witness_length(const uint8_t *explanation) { return explanation[15]; }
static inline const uint8_t *planner_witness(const uint8_t *explanation) { return explanation + 16; }

#ifdef __cplusplus
}
#endif

#endif
