/* host/words.h: a job, an answer and a refusal in words. Each takes only what the library has accepted that far: a job that
 * was read, an answer whose form was read. Nothing is judged here; the numbers come from the sheets and the outcome.
 */
#ifndef HOST_WORDS_H
#define HOST_WORDS_H

#include "board.h"

/* A counted run of bytes, from its count on. */
static inline void show_seen(char cell, const uint8_t *seen, unsigned rows)
{
    printf("%c sees %s", cell, seen[0] == 0 ? "no wires" : "wires");
    for (unsigned i = 1; i <= seen[0]; i++)
        printf(" %u", seen[i]);
    printf(", rows %u\n", rows);
}

static inline void show_term(unsigned wires, unsigned term)
{
    unsigned subject = term / 2;
    if (subject < wires)
        printf("wire %u is %u", subject, 1 - term % 2);
    else
        printf("%c is %u", subject == wires ? 'A' : 'B', 1 - term % 2);
}

/* How a set of terms reads: its name, what stands between two terms, and what an empty one does. */
struct reads {
    const char *name, *between, *empty;
};

static const struct reads as_rule = {"rule", " or ", "never holds"}, as_excuse = {"excuse", " and ", "always holds"};

/* A set of terms from its count on. Gives the place after it. */
static inline const uint8_t *show_terms(const struct reads *reads, unsigned wires, unsigned number, const uint8_t *at)
{
    printf("%s %u: ", reads->name, number);
    if (at[0] == 0)
        printf("%s", reads->empty);
    for (unsigned i = 1; i <= at[0]; i++) {
        if (i > 1)
            printf("%s", reads->between);
        show_term(wires, at[i]);
    }
    putchar('\n');
    return at + 1 + at[0];
}

/* A section of rules or excuses from its count on. Gives the place after it. */
static inline const uint8_t *show_section(const struct reads *reads, unsigned wires, const uint8_t *at)
{
    unsigned count = word(at);
    printf("%ss %u\n", reads->name, count);
    at += 2;
    for (unsigned number = 0; number < count; number++)
        at = show_terms(reads, wires, number, at);
    return at;
}

/* A job of form 1 or 2. Form two has the excuses after the rules. */
static inline void show_job(const uint8_t *job, int form)
{
    struct board board = board_of(job);
    printf("wires %u%s", board.wires, board.wires == 0 ? "" : ", on pins");
    for (unsigned wire = 0; wire < board.wires; wire++)
        printf(" %u", board.pins[wire]);
    putchar('\n');
    show_seen('A', board.seen_a, board.rows_a);
    show_seen('B', board.seen_b, board.rows_b);
    const uint8_t *excuses = show_section(&as_rule, board.wires, board.rules);
    if (form == 2)
        show_section(&as_excuse, board.wires, excuses);
}

/* A job sheet that was made: its length and what it holds. */
static inline void show_made(const uint8_t *job, uint32_t length, int form)
{
    printf("sheet of %u bytes\n", (unsigned)length);
    show_job(job, form);
}

/* The wires' states in a combination: the wire at position p has weight 2^p. */
static inline void show_wires(unsigned wires, unsigned combination)
{
    printf("%s", wires == 0 ? "no wires" : "wires");
    for (unsigned wire = 0; wire < wires; wire++)
        printf(" %u=%u", wire, combination >> wire & 1);
}

/* Claim 2r says that row r holds 0, claim 2r+1 that it holds 1; the rows of A come first. */
static inline void show_claim(const struct board *board, unsigned claim)
{
    unsigned row = claim / 2;
    if (row < board->rows_a)
        printf("A row %u is %u", row, claim % 2);
    else
        printf("B row %u is %u", row - board->rows_a, claim % 2);
}

/* The step from an entry's claim to the next entry's, the last one's to the first's, by the entry's combination. */
static inline void show_step(const struct board *board, const uint8_t *answer, unsigned entry)
{
    const uint8_t *entries = answer + 6;
    unsigned next = entry + 1 == word(answer + 4) ? 0 : entry + 1;
    show_claim(board, word(entries + 4 * entry));
    printf(", so ");
    show_claim(board, word(entries + 4 * next));
    printf(", by ");
    show_wires(board->wires, word(entries + 4 * entry + 2));
    putchar('\n');
}

static inline void show_tables(const uint8_t *answer)
{
    puts("tables fit");
    show_table('B', show_table('A', answer));
}

static inline void show_walk(const uint8_t *job, const uint8_t *answer)
{
    struct board board = board_of(job);
    puts("walk stands: no pair of tables fits");
    for (unsigned entry = 0; entry < word(answer + 4); entry++)
        show_step(&board, answer, entry);
}

static inline const char *reason(uint32_t code)
{
    switch (code) {
    case ORMSVELG_ENDS: return "job ends where a byte is called for";
    case ORMSVELG_TOO_MANY: return "count above its limit";
    case ORMSVELG_NOT_RISING: return "entry not above the one before";
    case ORMSVELG_TOO_HIGH: return "wire position or term not below its limit";
    case ORMSVELG_LEFT_OVER: return "bytes left over";
    case ORMSVELG_NO_ROOM: return "lent buffer too short";
    case ORMSVELG_WRONG_LENGTH: return "answer ends early or has bytes over";
    case ORMSVELG_OTHER_KIND: return "count that fits neither tables nor a walk for this job";
    case ORMSVELG_NOT_A_BIT: return "table byte above 1";
    case ORMSVELG_BREAKS_RULE: return "tables break a rule";
    case ORMSVELG_OUT_OF_RANGE: return "claim or combination not below its limit";
    case ORMSVELG_NO_STEP: return "step does not hold";
    case ORMSVELG_NO_OPPOSITE: return "opposite of the first claim is absent";
    case ORMSVELG_ASKS_MORE:
        return "job Q asks more than job P: other pins, a wire less, a rule that contains no rule of P, or an excuse of P "
               "that contains no excuse of Q";
    case ORMSVELG_WALK_GIVEN: return "answer is a walk where tables are needed";
    case ORMSVELG_EXCUSES_LOST: return "job has excuses, which a sheet of form 1 cannot hold";
    default: return "a code that is not in use";
    }
}

/* What the place of a refusal counts; null where the place says nothing. */
static inline const char *place_word(uint32_t code)
{
    switch (code) {
    case ORMSVELG_BREAKS_RULE: return "combination";
    case ORMSVELG_NO_STEP: return "entry";
    case ORMSVELG_NO_ROOM:
    case ORMSVELG_NO_OPPOSITE:
    case ORMSVELG_ASKS_MORE:
    case ORMSVELG_WALK_GIVEN: return NULL;
    default: return "byte";
    }
}

/* A refusal by its code, sheet and place, as a line. */
static inline void show_refused(FILE *out, uint64_t outcome)
{
    uint32_t code = ormsvelg_code(outcome);
    fprintf(out, "refused: code %u on sheet %u", (unsigned)code, (unsigned)ormsvelg_sheet(outcome));
    if (place_word(code) != NULL)
        fprintf(out, " at %s %u", place_word(code), (unsigned)ormsvelg_place(outcome));
    fprintf(out, ": %s\n", reason(code));
}

/* The states of the wires at a combination, the lowest rule that the tables break there, and what the two rows hold that it
 * shows, so that each term of the rule can be seen to be false. */
static inline void show_broken(const uint8_t *job, const uint8_t *answer, unsigned combination)
{
    struct board board = board_of(job);
    struct broken broken = lowest_broken(job, answer, combination);
    struct held held = held_at(&board, answer, combination);
    printf("broken at ");
    show_wires(board.wires, combination);
    putchar('\n');
    if (broken.rule != NULL)
        show_terms(&as_rule, board.wires, broken.number, broken.rule);
    show_claim(&board, held.claim_a);
    putchar('\n');
    show_claim(&board, held.claim_b);
    putchar('\n');
}

/* A refusal, and for a combination or an entry what it is. */
static inline void show_refusal(uint64_t outcome, const uint8_t *job, const uint8_t *answer)
{
    uint32_t code = ormsvelg_code(outcome), place = ormsvelg_place(outcome);
    show_refused(stdout, outcome);
    if (code == ORMSVELG_BREAKS_RULE)
        show_broken(job, answer, place);
    if (code == ORMSVELG_NO_STEP) {
        struct board board = board_of(job);
        printf("not so: ");
        show_step(&board, answer, place);
    }
}

#endif
