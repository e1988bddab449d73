/* host/test_solve.c: the solver through the C face, on the sheets of document 01, and in form two with excuses.
 * Tables are written out by hand from the paper. Several walks may stand, so a walk is judged by the checker and by its
 * length. The lent buffer is filled with a pattern, and every byte that must stay is looked at.
 */
#include "lent.h"

/* The calls for job sheets of one form, and those under test. */
struct calls {
    uint64_t (*solve)(const uint8_t *, size_t, uint8_t *, size_t);
    uint64_t (*check)(const uint8_t *, size_t, const uint8_t *, size_t);
};

static const struct calls one = {ormsvelg_solve, ormsvelg_check}, two = {ormsvelg_solve_two, ormsvelg_check_two};
static const struct calls *calls = &one;

static uint64_t solve(const uint8_t *job, size_t length, size_t room)
{
    lend();
    return calls->solve(job, length, lent, room);
}

static void gives_tables(const char *name, const uint8_t *job, size_t length, const uint8_t *sheet, size_t wanted)
{
    uint64_t outcome = solve(job, length, ORMSVELG_LONGEST_ANSWER);
    expect(name, "the outcome", outcome, ORMSVELG_TABLES | (uint64_t)wanted << 40);
    expect(name, "the sheet's difference", memcmp(lent, sheet, wanted) != 0, 0);
    expect(name, "the checker's outcome", calls->check(job, length, lent, wanted), ORMSVELG_TABLES);
    stays(name, wanted);
}

static void gives_walk(const char *name, const uint8_t *job, size_t length, unsigned rows)
{
    uint64_t outcome = solve(job, length, ORMSVELG_LONGEST_ANSWER);
    size_t written = ormsvelg_written(outcome);
    expect(name, "the outcome without its length", outcome & 0xFFFFFFFFFF, ORMSVELG_WALK);
    expect(name, "the checker's outcome", calls->check(job, length, lent, written), ORMSVELG_WALK);
    expect(name, "more than 4R - 2 entries", written > 6 + 4 * (4 * rows - 2), 0);
    stays(name, written);
}

static void refuses(const char *name, const uint8_t *job, size_t length, size_t room, uint64_t outcome)
{
    expect(name, "the outcome", solve(job, length, room), outcome);
    stays(name, 0);
}

static void form_one(void)
{
    static const uint8_t j1[] = {0, 0, 0, 0, 0};
    static const uint8_t j2[] = {1, 4, 1, 0, 1, 0, 2, 0, 2, 2, 4, 2, 3, 5};
    static const uint8_t j3[] = {2, 4, 7, 1, 0, 1, 1, 6, 0, 4, 0, 3, 4, 6, 4, 1, 2, 4, 6, 3, 0, 2, 5, 3,
                                 0, 2, 7, 3, 1, 3, 5, 3, 1, 3, 7};
    gives_tables("J1", j1, sizeof j1, SHEET(1, 0, 0, 1, 0, 0, 0, 0));
    gives_tables("J2", j2, sizeof j2, SHEET(2, 0, 0, 0, 2, 0, 1, 1, 0, 0));
    gives_walk("J3", j3, sizeof j3, 4);
    gives_walk("J4", SHEET(0, 0, 0, 1, 0, 0), 2);
    /* J5: no wires, rules {A, B} and {not A, not B}: A 0, B 1. */
    gives_tables("J5", SHEET(0, 0, 0, 2, 0, 2, 0, 2, 2, 1, 3), SHEET(1, 0, 0, 1, 0, 1, 0, 0));
    /* J6: one wire, B must equal it, A sees nothing and B the wire: A 0, B 01. J7: B sees nothing too. */
    gives_tables("J6", SHEET(1, 0, 0, 1, 0, 2, 0, 2, 1, 4, 2, 0, 5), SHEET(1, 0, 0, 2, 0, 0, 1, 0, 0));
    gives_walk("J7", SHEET(1, 0, 0, 0, 2, 0, 2, 1, 4, 2, 0, 5), 2);
    /* Two wires u and v, A sees u, B sees v; A equals B exactly when the wires are equal: A 01, B 01. Each of the eight
     * states of u, v, A and B that are wrong is one rule: the terms that are false there. */
    gives_tables("equal wires",
                 SHEET(2, 0, 1, 1, 0, 1, 1, 8, 0,
                       4, 0, 2, 4, 7,   4, 0, 2, 5, 6,
                       4, 1, 2, 4, 6,   4, 1, 2, 5, 7,
                       4, 0, 3, 4, 6,   4, 0, 3, 5, 7,
                       4, 1, 3, 4, 7,   4, 1, 3, 5, 6),
                 SHEET(2, 0, 0, 1, 2, 0, 0, 1, 0, 0));
    refuses("room 8,189", j1, sizeof j1, ORMSVELG_LONGEST_ANSWER - 1, ORMSVELG_NO_ROOM);
    refuses("no room", j3, sizeof j3, 0, ORMSVELG_NO_ROOM);
    refuses("empty job", NULL, 0, ROOM, ORMSVELG_ENDS | 1 << 8);
    refuses("bad job and no room", SHEET(13), 0, ORMSVELG_TOO_MANY | 1 << 8);
    refuses("one byte more", SHEET(0, 0, 0, 0, 0, 0), ROOM, ORMSVELG_LEFT_OVER | 1 << 8 | 5 << 16);
    expect("null buffer", "the outcome", ormsvelg_solve(j1, sizeof j1, NULL, 0), ORMSVELG_NO_ROOM);
}

/* With no excuses, and with one that never holds, a job has the tables it has in form one, or a walk as there. */
static void nothing_excused(void)
{
    gives_tables("J1", SHEET(J1, NO_EXCUSES), SHEET(J1_TABLES));
    gives_tables("J2", SHEET(J2, NO_EXCUSES), SHEET(J2_TABLES));
    gives_walk("J3", SHEET(J3, NO_EXCUSES), 4);
    gives_walk("J4", SHEET(J4, NO_EXCUSES), 2);
    gives_tables("J5", SHEET(J5, NO_EXCUSES), SHEET(J5_TABLES));
    gives_tables("J6", SHEET(J6, NO_EXCUSES), SHEET(J6_TABLES));
    gives_walk("J7", SHEET(J7, NO_EXCUSES), 2);
    gives_walk("speed wires", SHEET(SPEED, NO_EXCUSES), 4);
    gives_tables("J2, never", SHEET(J2, ONE_EXCUSE(NEVER)), SHEET(J2_TABLES));
    gives_walk("J3, never", SHEET(J3, ONE_EXCUSE(NEVER)), 4);
    gives_walk("J3, all terms", SHEET(J3, ONE_EXCUSE(4, 0, 1, 2, 3)), 4);
    gives_tables("J6, never", SHEET(J6, ONE_EXCUSE(NEVER)), SHEET(J6_TABLES));
    gives_walk("J7, never", SHEET(J7, ONE_EXCUSE(NEVER)), 2);
    gives_walk("speed wires, never", SHEET(SPEED, ONE_EXCUSE(NEVER)), 4);
}

/* Where all is excused, tables of 0 are the first that fit, whatever the rules. */
static void all_excused(void)
{
    static const uint8_t one_row[] = {J1_TABLES}, two_rows[] = {TABLES(ROWS_2(0, 0), ROWS_2(0, 0))};
    gives_tables("J2", SHEET(J2, ONE_EXCUSE(ALWAYS)), two_rows, sizeof two_rows);
    gives_tables("J3", SHEET(J3, ONE_EXCUSE(ALWAYS)), two_rows, sizeof two_rows);
    gives_tables("J4", SHEET(J4, ONE_EXCUSE(ALWAYS)), one_row, sizeof one_row);
    gives_tables("J5", SHEET(J5, ONE_EXCUSE(ALWAYS)), one_row, sizeof one_row);
    gives_tables("J6", SHEET(J6, ONE_EXCUSE(ALWAYS)), SHEET(TABLES(ROWS_1(0), ROWS_2(0, 0))));
    gives_tables("J7", SHEET(J7, ONE_EXCUSE(ALWAYS)), one_row, sizeof one_row);
    gives_tables("speed wires", SHEET(SPEED, ONE_EXCUSE(ALWAYS)), two_rows, sizeof two_rows);
    gives_tables("J3, the first wire at 1 and at 0", SHEET(J3, TWO_EXCUSES(FIRST, NOT_FIRST)), two_rows, sizeof two_rows);
}

/* A row that only excused combinations show is free, so it is 0 in the first pair. */
static void some_excused(void)
{
    /* At 1 A's row 1 is 1 and B's row 0 is 0; at 2 B's row 1 is 1 and A's row 0 is 0. */
    gives_tables("speed wires, never both", SHEET(SPEED, ONE_EXCUSE(BOTH)), SHEET(SPEED_TABLES));
    gives_tables("speed wires, the first never", SHEET(SPEED, ONE_EXCUSE(FIRST)), SHEET(TABLES(ROWS_2(0, 0), ROWS_2(0, 1))));
    gives_tables("speed wires, the second never", SHEET(SPEED, ONE_EXCUSE(SECOND)),
                 SHEET(TABLES(ROWS_2(0, 1), ROWS_2(0, 0))));
    gives_walk("speed wires, the first always", SHEET(SPEED, ONE_EXCUSE(NOT_FIRST)), 4);
    /* In J2 A and B differ in the row that is left; in J6 and J7 B equals the wire where it can be. */
    gives_tables("J2, never 1", SHEET(J2, ONE_EXCUSE(FIRST)), SHEET(TABLES(ROWS_2(0, 0), ROWS_2(1, 0))));
    gives_tables("J2, never 0", SHEET(J2, ONE_EXCUSE(NOT_FIRST)), SHEET(TABLES(ROWS_2(0, 0), ROWS_2(0, 1))));
    gives_tables("J6, never 1", SHEET(J6, ONE_EXCUSE(FIRST)), SHEET(TABLES(ROWS_1(0), ROWS_2(0, 0))));
    gives_tables("J6, never 0", SHEET(J6, ONE_EXCUSE(NOT_FIRST)), SHEET(TABLES(ROWS_1(0), ROWS_2(0, 1))));
    gives_tables("J7, never 1", SHEET(J7, ONE_EXCUSE(FIRST)), SHEET(TABLES(ROWS_1(0), ROWS_1(0))));
    gives_tables("J7, never 0", SHEET(J7, ONE_EXCUSE(NOT_FIRST)), SHEET(TABLES(ROWS_1(0), ROWS_1(1))));
    /* In J3 both cells are 0 where the wires are equal, and one is 1 where they differ: at 1 A's row 1 or B's row 0, at 2
     * A's row 0 or B's row 1. Without 3, or without 0, a row of each cell is left to be 1; without 1 it still fails at 2. */
    gives_tables("J3, never both", SHEET(J3, ONE_EXCUSE(BOTH)), SHEET(TABLES(ROWS_2(0, 1), ROWS_2(0, 1))));
    gives_tables("J3, never neither", SHEET(J3, ONE_EXCUSE(2, 1, 3)), SHEET(TABLES(ROWS_2(1, 0), ROWS_2(1, 0))));
    gives_walk("J3, never the first alone", SHEET(J3, ONE_EXCUSE(2, 0, 3)), 4);
    gives_tables("J3, never one alone", SHEET(J3, TWO_EXCUSES(2, 0, 3, 2, 1, 2)), SHEET(TABLES(ROWS_2(0, 0), ROWS_2(0, 0))));
    /* A and B are equal in the rows shown at 0, unlike in those shown at 2. */
    gives_tables("equal wires, the first never", SHEET(PARITY, ONE_EXCUSE(FIRST)),
                 SHEET(TABLES(ROWS_2(0, 0), ROWS_2(0, 1))));
}

/* 12 wires, 8 seen by each cell, and the empty rule. Excuses for each wire at 0 leave 4,095, which shows both rows 255: no
 * pair fits. One more excuse, for all wires at 1, leaves nothing. */
static void largest_board(void)
{
    static uint8_t job[128], tables[518] = {[1] = 1, [259] = 1};
    size_t at = rising_sheet(job, 12, 8, 8, 1, 0), count_at = at;
    job[at++] = 12;
    job[at++] = 0;
    for (unsigned wire = 0; wire < 12; wire++) {
        job[at++] = 1;
        job[at++] = (uint8_t)(2 * wire + 1);
    }
    gives_walk("4,095 left", job, at, 512);
    job[count_at]++;
    job[at++] = 12;
    for (unsigned wire = 0; wire < 12; wire++)
        job[at++] = (uint8_t)(2 * wire);
    gives_tables("none left", job, at, tables, sizeof tables);
}

/* The longest sheet: every rule always holds, and no excuse ever does. */
static void longest_job(void)
{
    static uint8_t job[ORMSVELG_LONGEST_JOB_TWO + 2], tables[518] = {[1] = 1, [259] = 1};
    size_t length = rising_sets(job, rising_sheet(job, 12, 8, 8, 256, 28), 64, 24);
    gives_tables("the longest job", job, length, tables, sizeof tables);
    refuses("the longest job and a byte", job, 9060, ROOM, ORMSVELG_LEFT_OVER | 1 << 8 | 9059 << 16);
    refuses("the longest job and two bytes", job, 9061, ROOM, ORMSVELG_LEFT_OVER | 1 << 8 | 9059 << 16);
}

static void refusals(void)
{
    static const uint8_t j1[] = {J1, NO_EXCUSES};
    refuses("room 8,189", j1, sizeof j1, ORMSVELG_LONGEST_ANSWER - 1, ORMSVELG_NO_ROOM);
    refuses("no room", SHEET(SPEED, NO_EXCUSES), 0, ORMSVELG_NO_ROOM);
    refuses("empty job", NULL, 0, ROOM, ORMSVELG_ENDS | 1 << 8);
    refuses("a sheet of form one", SHEET(SPEED), ROOM, ORMSVELG_ENDS | 1 << 8 | 18 << 16);
    refuses("65 excuses and no room", SHEET(J1, TWO(65)), 0, ORMSVELG_TOO_MANY | 1 << 8 | 5 << 16);
    refuses("3 terms of one wire", SHEET(J7, ONE_EXCUSE(3, 0, 1, 2)), ROOM, ORMSVELG_TOO_MANY | 1 << 8 | 14 << 16);
    refuses("equal terms", SHEET(SPEED, ONE_EXCUSE(2, 2, 2)), ROOM, ORMSVELG_NOT_RISING | 1 << 8 | 22 << 16);
    refuses("a cell's term", SHEET(SPEED, ONE_EXCUSE(1, 4)), ROOM, ORMSVELG_TOO_HIGH | 1 << 8 | 21 << 16);
    refuses("one byte more", SHEET(SPEED, ONE_EXCUSE(BOTH), 0), ROOM, ORMSVELG_LEFT_OVER | 1 << 8 | 23 << 16);
    expect("null buffer", "the outcome", ormsvelg_solve_two(j1, sizeof j1, NULL, 0), ORMSVELG_NO_ROOM);
    calls = &one;
    refuses("a sheet of form two in form one", SHEET(SPEED, ONE_EXCUSE(BOTH)), ROOM, ORMSVELG_LEFT_OVER | 1 << 8 | 18 << 16);
    calls = &two;
}

static void form_two(void)
{
    calls = &two;
    nothing_excused();
    all_excused();
    some_excused();
    largest_board();
    longest_job();
    refusals();
}

int main(void)
{
    form_one();
    form_two();
    return verdict("solver");
}
