/* ormsvelg.h: the bench's face of the proved library, libormsvelg.a (x86-64).
 * A call takes lent buffers, each a pointer and a length, and hands back one outcome as a 64-bit number.
 * A null pointer with length 0 is an empty buffer: an empty job, refused with 1 at place 0, an empty answer, or an
 * empty list of pins or rules.
 * Lent buffers do not overlap. The functions keep no state and write nothing but the lent buffers.
 */
#ifndef ORMSVELG_H
#define ORMSVELG_H

#include <stddef.h>
#include <stdint.h>

/* Example:
 *     uint8_t job[] = {0, 0, 0, 0, 0};                no wires, no rules
 *     uint8_t answer[ORMSVELG_LONGEST_ANSWER];
 *     uint64_t outcome = ormsvelg_solve(job, sizeof job, answer, sizeof answer);
 *     if (ormsvelg_code(outcome) == ORMSVELG_TABLES)
 *         printf("tables in %u bytes\n", ormsvelg_written(outcome));
 */

/* A job sheet is of form one or of form two. Form two has a section more, after the rules: excuses, each a set of terms of
 * the wires. A combination at which all terms of some excuse hold is excused: tables may break a rule there, and no step
 * holds by it. Which form a call takes is in its name: those that end in _two take form two, the others form one.
 * The two movers name the form that they move a sheet to: ormsvelg_to_two takes form one, ormsvelg_to_one form two. */

/* The limits of the sheets. No longer sheet is accepted, and of a longer one the first ORMSVELG_LONGEST_JOB + 1, in form
 * two ORMSVELG_LONGEST_JOB_TWO + 1, or ORMSVELG_LONGEST_ANSWER + 1 bytes decide the outcome. */
#define ORMSVELG_MOST_WIRES 12
#define ORMSVELG_MOST_SEEN 8
#define ORMSVELG_MOST_RULES 256
#define ORMSVELG_MOST_EXCUSES 64
#define ORMSVELG_LONGEST_JOB 7457
#define ORMSVELG_LONGEST_JOB_TWO 9059
#define ORMSVELG_LONGEST_ANSWER 8190

/* Codes. Successes have sheet and place 0. The place of each refusal stands beside it. */
#define ORMSVELG_ACCEPTED 0      /* reader: sheet accepted; writer, mover: sheet written */
#define ORMSVELG_TABLES 20       /* solver, checker, widener: tables that fit */
#define ORMSVELG_WALK 21         /* solver, checker: a walk that stands */
/* Refusals of a job. The first fault on the sheet decides. The writer's 2, 3 and 4 have the description's section, 1 to
 * 4, as sheet and an entry's number, from 0, as place; for the number of a section's entries the place is 0. */
#define ORMSVELG_ENDS 1          /* job ends where a byte is called for: its length */
#define ORMSVELG_TOO_MANY 2      /* count above its limit: the count's first byte */
#define ORMSVELG_NOT_RISING 3    /* entry not above the one before: its offset */
#define ORMSVELG_TOO_HIGH 4      /* wire position not below n, or term not below 2n+4, in an excuse 2n: its offset */
#define ORMSVELG_LEFT_OVER 5     /* bytes left over in a job: the first of them */
#define ORMSVELG_NO_ROOM 6       /* answer buffer under ORMSVELG_LONGEST_ANSWER bytes, or sheet buffer shorter than the
                                  * sheet to be written or moved, sheet 0: 0 */
/* Refusals of an answer, sheet 2: first 7, 8, 9 and 11 in reading order, then 10, or 12 and then 13. */
#define ORMSVELG_WRONG_LENGTH 7  /* answer ends early, or has bytes over: its length, or the first of them */
#define ORMSVELG_OTHER_KIND 8    /* count of neither permitted kind after the counts before it: its first byte */
#define ORMSVELG_NOT_A_BIT 9     /* table byte above 1: its offset */
#define ORMSVELG_BREAKS_RULE 10  /* tables break a rule: the lowest such combination that is not excused; which rule they
                                  * break there is not handed over */
#define ORMSVELG_OUT_OF_RANGE 11 /* claim not below 2R, or combination not below 2^n: its two bytes' offset */
#define ORMSVELG_NO_STEP 12      /* a step does not hold: the lowest such entry's number, from 0 */
#define ORMSVELG_NO_OPPOSITE 13  /* opposite of the first claim is absent: 0 */
/* Refusals of the widener, with place 0. */
#define ORMSVELG_ASKS_MORE 14    /* Q does not ask no more than P, sheet 3 */
#define ORMSVELG_WALK_GIVEN 15   /* answer is a standing walk where tables are needed, sheet 2 */
/* Refusal of the mover to form one, sheet 1. */
#define ORMSVELG_EXCUSES_LOST 16 /* job has excuses, which form one cannot hold: their count's first byte */

#ifdef __cplusplus
extern "C" {
#endif

/* Reads a job sheet. ORMSVELG_ACCEPTED, or a refusal of sheet 1 with one of the codes 1 to 5. Writes nothing. */
uint64_t ormsvelg_read(const uint8_t *job, size_t job_len);

/* Checks an answer sheet against a job sheet. ORMSVELG_TABLES or ORMSVELG_WALK; else a refusal of sheet 1 with one
 * of the codes 1 to 5, or one of sheet 2 with one of the codes 7 to 13. Writes nothing. */
uint64_t ormsvelg_check(const uint8_t *job, size_t job_len, const uint8_t *answer, size_t answer_len);

/* Solves a job sheet. ORMSVELG_TABLES: the first fitting pair of tables; ORMSVELG_WALK: a walk that stands, so that no
 * pair fits. The answer sheet is at the front of `answer`; its length is the bytes written, and bytes beyond it stay.
 * Else a refusal of sheet 1 with one of the codes 1 to 5, or ORMSVELG_NO_ROOM; every byte stays. */
uint64_t ormsvelg_solve(const uint8_t *job, size_t job_len, uint8_t *answer, size_t answer_len);

/* Widens an answer for job P, tables that fit, to job Q, which asks no more: ORMSVELG_TABLES, with the tables sheet for Q
 * at the front of `out`; bytes beyond it stay. Else, in this order, P's refusals 1 to 5 (sheet 1), Q's (sheet 3), the
 * answer's 7 to 13 (sheet 2), 15, 14, ORMSVELG_NO_ROOM; every byte stays. */
uint64_t ormsvelg_widen(const uint8_t *p, size_t p_len, const uint8_t *q, size_t q_len,
                        const uint8_t *answer, size_t answer_len, uint8_t *out, size_t out_len);

/* The same four calls for job sheets of form two, with the same outcomes; the codes 1 to 5 apply to the excuses too.
 * For ormsvelg_widen_two both jobs are of form two, and for Q to ask no more each excuse of P must also contain all
 * terms of some excuse of Q, even an excuse that can never hold; else 14. */
uint64_t ormsvelg_read_two(const uint8_t *job, size_t job_len);
uint64_t ormsvelg_check_two(const uint8_t *job, size_t job_len, const uint8_t *answer, size_t answer_len);
uint64_t ormsvelg_solve_two(const uint8_t *job, size_t job_len, uint8_t *answer, size_t answer_len);
uint64_t ormsvelg_widen_two(const uint8_t *p, size_t p_len, const uint8_t *q, size_t q_len,
                            const uint8_t *answer, size_t answer_len, uint8_t *out, size_t out_len);

/* Writes the job sheet of a description, in form one: the pins, a byte for each of the n = pins_len wires; the wires that
 * A and B see, wire p with weight 2^p; and rules_len rules, each the mask of its terms, term t with weight 2^t. Term 2p
 * says that wire p is 1, 2n that A is 1, 2n+2 that B is 1; the odd term after each says 0. `rules` is aligned as C aligns
 * uint32_t.
 * ORMSVELG_ACCEPTED: the sheet is at the front of `sheet`, where exactly its length is enough; bytes beyond it stay. Else
 * the first of these, and every byte stays. Section 1: 2 for more than 12 pins; 3 for a pin not above the one before, at
 * its index. Section 2, what A sees: 2 for more than 8 wires; 4 for the first not below n, at its index in the rising set.
 * Section 3: B likewise. Section 4: 2 for more than 256 rules; then for each rule, at its number, 2 for more than 2n+4
 * terms, or 4 for a term not below 2n+4. Last ORMSVELG_NO_ROOM. */
uint64_t ormsvelg_write(const uint8_t *pins, size_t pins_len, uint32_t sees_a, uint32_t sees_b,
                        const uint32_t *rules, size_t rules_len, uint8_t *sheet, size_t sheet_len);

/* Moves a job sheet from form one to form two, and from form two to form one: the same job, so that the solver gives the
 * same tables, or a walk both times, and the checker the same outcomes. Form two has two bytes more, a count of no excuses;
 * there and back gives the same bytes.
 * ORMSVELG_ACCEPTED: the sheet is at the front of `moved`, where exactly its length is enough; bytes beyond it stay. Else
 * the first of these, and every byte stays: a refusal of sheet 1 with one of the codes 1 to 5, as the reader of the form
 * that is left gives it; to form one ORMSVELG_EXCUSES_LOST for any excuse, even one that is empty or can never hold;
 * ORMSVELG_NO_ROOM. */
uint64_t ormsvelg_to_two(const uint8_t *job, size_t job_len, uint8_t *moved, size_t moved_len);
uint64_t ormsvelg_to_one(const uint8_t *job, size_t job_len, uint8_t *moved, size_t moved_len);

#ifdef __cplusplus
}
#endif

/* The four numbers of an outcome: code in the low 8 bits, then sheet in 8, place in 24, bytes written in 24. */
static inline uint32_t ormsvelg_code(uint64_t outcome) { return (uint32_t)(outcome & 0xFF); }
static inline uint32_t ormsvelg_sheet(uint64_t outcome) { return (uint32_t)(outcome >> 8 & 0xFF); }
static inline uint32_t ormsvelg_place(uint64_t outcome) { return (uint32_t)(outcome >> 16 & 0xFFFFFF); }
static inline uint32_t ormsvelg_written(uint64_t outcome) { return (uint32_t)(outcome >> 40); }

#endif
