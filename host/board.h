/* host/board.h: what stands in accepted sheets, as numbers: where a job has its sections, what tables hold at a combination,
 * and the lowest rule that they break there. An outcome with code 10 has the combination alone, so the rule is found here,
 * in the same way for both forms. Nothing is judged: that tables break a rule at the combination, and that it is not
 * excused, is the library's word, so excuses need no look.
 */
#ifndef HOST_BOARD_H
#define HOST_BOARD_H

#include "sheet.h"

/* Where an accepted job has its sections, and the numbers that its answers are read by. */
struct board {
    unsigned wires, rows_a, rows_b;
    const uint8_t *pins, *seen_a, *seen_b, *rules;
};

static inline struct board board_of(const uint8_t *job)
{
    struct board board;
    board.wires = job[0];
    board.pins = job + 1;
    board.seen_a = board.pins + board.wires;
    board.rows_a = 1u << board.seen_a[0];
    board.seen_b = board.seen_a + 1 + board.seen_a[0];
    board.rows_b = 1u << board.seen_b[0];
    board.rules = board.seen_b + 1 + board.seen_b[0];
    return board;
}

/* The row that a combination shows, from the count of the seen wires on: the lowest of them has weight 1. */
static inline unsigned row_shown(const uint8_t *seen, unsigned combination)
{
    unsigned row = 0;
    for (unsigned i = 0; i < seen[0]; i++)
        row += (combination >> seen[1 + i] & 1) << i;
    return row;
}

/* What tables hold in the two rows that a combination shows, each as the claim that is true there. */
struct held {
    unsigned claim_a, claim_b;
};

/* Each table of the answer has its count's two bytes before its rows. */
static inline struct held held_at(const struct board *board, const uint8_t *answer, unsigned combination)
{
    const uint8_t *table_a = answer + 2, *table_b = table_a + board->rows_a + 2;
    unsigned row_a = row_shown(board->seen_a, combination), row_b = row_shown(board->seen_b, combination);
    return (struct held){2 * row_a + table_a[row_a], 2 * (board->rows_a + row_b) + table_b[row_b]};
}

/* The state of each v that terms 2v and 2v+1 can name, at digit v: the wires', then A's and B's. */
static inline unsigned states_at(const struct board *board, struct held held, unsigned combination)
{
    return combination | (held.claim_a % 2) << board->wires | (held.claim_b % 2) << (board->wires + 1);
}

/* A rule from its count on. Term 2v is true where v's state is 1, term 2v+1 where it is 0. */
static inline int rule_holds(const uint8_t *rule, unsigned states)
{
    for (unsigned i = 1; i <= rule[0]; i++)
        if ((states >> rule[i] / 2 & 1) != rule[i] % 2u)
            return 1;
    return 0;
}

/* A rule's number, from 0, and where it stands in the job sheet, from its count on. */
struct broken {
    unsigned number;
    const uint8_t *rule;
};

/* The lowest rule of an accepted job that accepted tables break at a combination below 2^n. Where they break none, the
 * number is how many rules there are, and the place is null. */
static inline struct broken lowest_broken(const uint8_t *job, const uint8_t *answer, unsigned combination)
{
    struct board board = board_of(job);
    unsigned rules = word(board.rules), states = states_at(&board, held_at(&board, answer, combination), combination);
    const uint8_t *rule = board.rules + 2;
    for (unsigned number = 0; number < rules; number++) {
        if (!rule_holds(rule, states))
            return (struct broken){number, rule};
        rule += 1 + rule[0];
    }
    return (struct broken){rules, NULL};
}

#endif
