/* host/test_two.c: the reader's and the checker's outcomes through the C face for job sheets of form two, with excuses.
 * Every expected number is written by hand from the papers' rules; none comes from a program. What both forms share is
 * tested for form one in host/test.c; here the sections before the excuses stand for it, and the fifth is looked at closely.
 */
#include "guarded.h"

#define LONGEST_ONE 7457
#define LONGEST 9059

static uint8_t longest[ROOM];

/* A sheet of form one under form two: it ends where the excuses' count is called for; with a count of 0 it is accepted, and
 * any byte after that is left over. */
static void takes_with_count(const char *name, const uint8_t *sheet, size_t length)
{
    uint8_t more[128] = {0};
    memcpy(more, sheet, length);
    refuses(name, sheet, length, 1, length);
    refuses(name, more, length + 1, 1, length + 1);
    accepts(name, more, length + 2);
    refuses(name, more, length + 3, 5, length + 2);
    prefixes(name, more, length + 2);
    judge(name, length + 2, ormsvelg_read(more, length + 2), 5 | 1 << 8 | (uint64_t)length << 16);
}

static void listed_sheets(void)
{
    takes_with_count("J1", SHEET(J1));
    takes_with_count("J2", SHEET(J2));
    takes_with_count("J3", SHEET(J3));
    takes_with_count("J4", SHEET(J4));
    takes_with_count("J5", SHEET(J5));
    takes_with_count("J6", SHEET(J6));
    takes_with_count("J7", SHEET(J7));
    takes_with_count("J6 widened", SHEET(J6_WIDE));
    takes_with_count("equal when the wires are", SHEET(PARITY));
    takes_with_count("speed wires", SHEET(SPEED));
    group("listed sheets with no excuses");
}

/* The speed wires' sheet has 18 bytes before its excuses. */
static void speed_sheet(void)
{
    static const uint8_t speed[] = {SPEED, ONE_EXCUSE(BOTH)};
    judge("length of the speed wires' sheet", sizeof speed, sizeof speed, 23);
    accepts("never both", speed, sizeof speed);
    prefixes("part of never both", speed, sizeof speed);
    judge("never both, in form one", 23, ormsvelg_read(speed, sizeof speed), 5 | 1 << 8 | 18 << 16);
    refuses("never both, and a byte", SHEET(SPEED, ONE_EXCUSE(BOTH), 0), 5, 23);
    refuses("never both, and two bytes", SHEET(SPEED, ONE_EXCUSE(BOTH), 1, 0), 5, 23);
    refuses("never both, twice", SHEET(SPEED, ONE_EXCUSE(BOTH), ONE_EXCUSE(BOTH)), 5, 23);
    judge("null pointer", 0, ormsvelg_read_two(NULL, 0), 0x0101);
    group("the speed wires' sheet");
}

/* 12 wires, 8 seen by each cell, 256 rules of 28 terms, 64 excuses of 24. */
static void longest_sheet(void)
{
    size_t length = rising_sheet(longest, 12, 8, 8, 256, 28);
    judge("length of its first four sections", length, length, LONGEST_ONE);
    judge("length of the longest sheet", LONGEST, rising_sets(longest, length, 64, 24), LONGEST);
    accepts("longest sheet", longest, LONGEST);
    prefixes("part of the longest sheet", longest, LONGEST);
    refuses("longest sheet and a byte", longest, LONGEST + 1, 5, LONGEST);
    refuses("longest sheet and many bytes", longest, ROOM, 5, LONGEST);
    judge("longest sheet, in form one", LONGEST, ormsvelg_read(longest, LONGEST), 5 | 1 << 8 | LONGEST_ONE << 16);
    /* The first 9,060 bytes decide, whatever comes after. */
    memset(longest + LONGEST + 1, 0xFF, ROOM - LONGEST - 1);
    refuses("longest sheet and many other bytes", longest, ROOM, 5, LONGEST);
    /* 9,059 is 2363 in hexadecimal. */
    judge("5 at 9,059", LONGEST + 1, read_guarded(longest, LONGEST + 1), 0x23630105);
    judge("limits", 0, ORMSVELG_MOST_EXCUSES == 64 && ORMSVELG_LONGEST_JOB_TWO == LONGEST, 1);
    group("longest sheet");
}

/* After J1 the excuses' count is at 5, the first excuse at 7. With no wires an excuse has no terms: one byte, 0. */
static void excuse_counts(void)
{
    uint8_t sheet[128] = {J1};
    for (unsigned excuses = 0; excuses <= 64; excuses++)
        accepts("0 to 64 excuses", sheet, rising_sets(sheet, 5, excuses, 0));
    refuses("64 excuses, 63 there", sheet, rising_sets(sheet, 5, 64, 0) - 1, 1, 70);
    refuses("64 excuses, 65 there", sheet, rising_sets(sheet, 5, 64, 0) + 1, 5, 71);
    refuses("65 excuses", sheet, rising_sets(sheet, 5, 65, 0), 2, 5);
    refuses("65 excuses, none there", SHEET(J1, TWO(65)), 2, 5);
    refuses("256 excuses, low byte 0", SHEET(J1, TWO(256)), 2, 5);
    refuses("320 excuses, low byte 64", SHEET(J1, TWO(320)), 2, 5);
    refuses("65,535 excuses", SHEET(J1, TWO(65535)), 2, 5);
    refuses("excuse count, one byte of it, 0", SHEET(J1, 0), 1, 6);
    refuses("excuse count, one byte of it, 65", SHEET(J1, 65), 1, 6);
    refuses("excuse count, one byte of it, 255", SHEET(J1, 0xFF), 1, 6);
    refuses("65 excuses after a rule", SHEET(J4, TWO(65)), 2, 6);
    group("excuse counts");
}

/* Where the cells see nothing and there are no rules, the first excuse is at wires + 7. */
static void term_counts(void)
{
    uint8_t sheet[128];
    for (unsigned wires = 0; wires <= 12; wires++) {
        size_t at = rising_sheet(sheet, wires, 0, 0, 0, 0);
        for (unsigned terms = 0; terms <= 2 * wires; terms++)
            accepts("0 to 2n terms", sheet, rising_sets(sheet, at, 1, terms));
        refuses("2n+1 terms", sheet, rising_sets(sheet, at, 1, 2 * wires + 1), 2, wires + 7);
        refuses("2n+4 terms", sheet, rising_sets(sheet, at, 1, 2 * wires + 4), 2, wires + 7);
        sheet[wires + 7] = 0xFF;
        refuses("255 terms, none there", sheet, wires + 8, 2, wires + 7);
    }
    refuses("a term in the second excuse of no wires", SHEET(J1, TWO_EXCUSES(ALWAYS, 1, 0)), 2, 8);
    refuses("3 terms in the second excuse of one wire", SHEET(J7, TWO_EXCUSES(NEVER, 3, 0, 1, 2)), 2, 17);
    group("terms of an excuse, at and above their number");
}

/* A cell's terms, 2n to 2n+3, are no terms of an excuse. Where there is but one term, it is at wires + 8. */
static void term_limits(void)
{
    uint8_t sheet[128];
    for (unsigned wires = 1; wires <= 12; wires++) {
        size_t at = rising_sets(sheet, rising_sheet(sheet, wires, 0, 0, 0, 0), 1, 1);
        for (unsigned term = 0; term < 2 * wires; term++) {
            sheet[at - 1] = (uint8_t)term;
            accepts("term below 2n", sheet, at);
        }
        for (unsigned term = 2 * wires; term <= 2 * wires + 4; term++) {
            sheet[at - 1] = (uint8_t)term;
            refuses("term 2n to 2n+4", sheet, at, 4, wires + 8);
        }
        sheet[at - 1] = 0xFF;
        refuses("term 255", sheet, at, 4, wires + 8);
    }
    /* One wire and one rule, whose one term is at 7: B at 0, 2n+3. The excuse's term is at 11. */
    accepts("2n+3 in the rule", SHEET(1, 4, 0, 0, 1, 0, 1, 5, ONE_EXCUSE(1, 1)));
    refuses("2n+3 in the rule and in the excuse", SHEET(1, 4, 0, 0, 1, 0, 1, 5, ONE_EXCUSE(1, 5)), 4, 11);
    group("terms of an excuse, at and above their limit");
}

/* Two wires, no rules: the excuses' count is at 7, the first excuse at 9. */
#define TWO_WIRES 2, 4, 7, 0, 0, 0, 0

static void rising_terms(void)
{
    refuses("equal terms", SHEET(TWO_WIRES, ONE_EXCUSE(2, 1, 1)), 3, 11);
    refuses("equal terms 0", SHEET(TWO_WIRES, ONE_EXCUSE(2, 0, 0)), 3, 11);
    refuses("falling terms", SHEET(TWO_WIRES, ONE_EXCUSE(2, 3, 2)), 3, 11);
    refuses("the third equal", SHEET(TWO_WIRES, ONE_EXCUSE(3, 0, 2, 2)), 3, 12);
    refuses("equal terms in the second excuse", SHEET(TWO_WIRES, TWO_EXCUSES(NEVER, 3, 0, 2, 2)), 3, 15);
    /* Each excuse starts anew. */
    accepts("an excuse that starts below the last", SHEET(TWO_WIRES, TWO_EXCUSES(1, 3, 1, 0)));
    accepts("equal excuses", SHEET(TWO_WIRES, TWO_EXCUSES(BOTH, BOTH)));
    accepts("one that always holds, one that never does", SHEET(TWO_WIRES, TWO_EXCUSES(ALWAYS, NEVER)));
    accepts("all terms", SHEET(TWO_WIRES, ONE_EXCUSE(4, 0, 1, 2, 3)));
    group("rising terms of an excuse");
}

/* Sheets with several faults: the leftmost one decides, a count is judged before its entries, and 4 before 3. */
static void first_faults(void)
{
    refuses("equal terms of a rule, then 65 excuses", SHEET(0, 0, 0, TWO(1), 2, 3, 3, TWO(65)), 3, 7);
    refuses("65 excuses, then bytes", SHEET(J1, TWO(65), 9, 9), 2, 5);
    refuses("3 terms of one wire, then term 2n twice", SHEET(1, 4, 0, 0, TWO(0), ONE_EXCUSE(3, 2, 2, 2)), 2, 8);
    refuses("term 2n, then an equal one", SHEET(1, 4, 0, 0, TWO(0), ONE_EXCUSE(2, 2, 2)), 4, 9);
    refuses("term 2n, then a lower one", SHEET(1, 4, 0, 0, TWO(0), ONE_EXCUSE(2, 2, 0)), 4, 9);
    refuses("term 2n as the second", SHEET(1, 4, 0, 0, TWO(0), ONE_EXCUSE(2, 1, 2)), 4, 10);
    refuses("equal terms, then 2n", SHEET(TWO_WIRES, ONE_EXCUSE(3, 0, 0, 4)), 3, 11);
    refuses("term 2n, then bytes over", SHEET(TWO_WIRES, ONE_EXCUSE(1, 4), 0), 4, 10);
    refuses("an excuse fewer, bytes left over", SHEET(J1, TWO(1), 0, 5), 5, 8);
    refuses("an excuse more than there are", SHEET(J1, TWO(2), 0), 1, 8);
    refuses("no byte of the one excuse", SHEET(TWO_WIRES, TWO(1)), 1, 9);
    refuses("one term of two", SHEET(TWO_WIRES, TWO(1), 2, 0), 1, 11);
    refuses("257 rules, then no excuses", SHEET(0, 0, 0, TWO(257), NO_EXCUSES), 2, 3);
    group("first faults");
}

/* With no excuses every answer has the outcome it has in form one. */
static void listed_answers(void)
{
    confirms("J1: A 0, B 0", SHEET(J1, NO_EXCUSES), SHEET(J1_TABLES), 20);
    confirms("J2: A 00, B 11", SHEET(J2, NO_EXCUSES), SHEET(J2_TABLES), 20);
    confirms("J3's walk", SHEET(J3, NO_EXCUSES), SHEET(J3_WALK), 21);
    confirms("J4's walk", SHEET(J4, NO_EXCUSES), SHEET(J4_WALK), 21);
    confirms("J5: A 0, B 1", SHEET(J5, NO_EXCUSES), SHEET(J5_TABLES), 20);
    rejects("J5's walk", SHEET(J5, NO_EXCUSES), SHEET(J5_WALK), 13, 0);
    confirms("J6: A 0, B 01", SHEET(J6, NO_EXCUSES), SHEET(J6_TABLES), 20);
    confirms("J7's walk", SHEET(J7, NO_EXCUSES), SHEET(J7_WALK), 21);
    rejects("J7: A 0, B 0", SHEET(J7, NO_EXCUSES), SHEET(J1_TABLES), 10, 1);
    rejects("J1: the walk (0,0)", SHEET(J1, NO_EXCUSES), SHEET(WALK(1, ENTRY(0, 0))), 12, 0);
    group("listed answers with no excuses");
}

/* Combination 1 has the first wire at 1, 2 the second, 3 both. A's row 1 must be 1 at 1 and 3, B's row 1 at 2 and 3, and
 * the cells are not both 1: at 1 A's row 1 and B's row 0, at 2 A's row 0 and B's row 1, at 3 both rows 1. */
static void speed_tables(void)
{
    rejects("no excuses: A 01, B 01", SHEET(SPEED, NO_EXCUSES), SHEET(SPEED_TABLES), 10, 3);
    confirms("never both: A 01, B 01", SHEET(SPEED, ONE_EXCUSE(BOTH)), SHEET(SPEED_TABLES), 20);
    /* Only 3 is excused. At 0 nothing is asked of A 1, B 0 or A 0, B 1. */
    rejects("never both: A 00, B 01", SHEET(SPEED, ONE_EXCUSE(BOTH)), SHEET(TABLES(ROWS_2(0, 0), ROWS_2(0, 1))), 10, 1);
    rejects("never both: A 01, B 11", SHEET(SPEED, ONE_EXCUSE(BOTH)), SHEET(TABLES(ROWS_2(0, 1), ROWS_2(1, 1))), 10, 1);
    rejects("never both: A 01, B 00", SHEET(SPEED, ONE_EXCUSE(BOTH)), SHEET(TABLES(ROWS_2(0, 1), ROWS_2(0, 0))), 10, 2);
    rejects("never both: A 11, B 01", SHEET(SPEED, ONE_EXCUSE(BOTH)), SHEET(TABLES(ROWS_2(1, 1), ROWS_2(0, 1))), 10, 2);
    rejects("never both: A 11, B 11", SHEET(SPEED, ONE_EXCUSE(BOTH)), SHEET(TABLES(ROWS_2(1, 1), ROWS_2(1, 1))), 10, 0);
    /* 1 and 3 are excused: A's row 1 is free. A 00, B 00 is wrong at 1 and 2; the place is 2. */
    confirms("the first never: A 00, B 01", SHEET(SPEED, ONE_EXCUSE(FIRST)), SHEET(TABLES(ROWS_2(0, 0), ROWS_2(0, 1))), 20);
    confirms("the first never: A 01, B 11", SHEET(SPEED, ONE_EXCUSE(FIRST)), SHEET(TABLES(ROWS_2(0, 1), ROWS_2(1, 1))), 20);
    rejects("the first never: A 00, B 00", SHEET(SPEED, ONE_EXCUSE(FIRST)),
            SHEET(TABLES(ROWS_2(0, 0), ROWS_2(0, 0))), 10, 2);
    /* 0 and 2 are excused: A 11, B 00 is wrong at 2 and 3, A 11, B 11 at each; the places are 3 and 1. */
    rejects("the first always: A 11, B 00", SHEET(SPEED, ONE_EXCUSE(NOT_FIRST)),
            SHEET(TABLES(ROWS_2(1, 1), ROWS_2(0, 0))), 10, 3);
    rejects("the first always: A 11, B 11", SHEET(SPEED, ONE_EXCUSE(NOT_FIRST)),
            SHEET(TABLES(ROWS_2(1, 1), ROWS_2(1, 1))), 10, 1);
    group("tables for the speed wires");
}

static void speed_walks(void)
{
    confirms("no excuses", SHEET(SPEED, NO_EXCUSES), SHEET(SPEED_WALK), 21);
    rejects("never both", SHEET(SPEED, ONE_EXCUSE(BOTH)), SHEET(SPEED_WALK), 12, 0);
    confirms("an excuse that never holds", SHEET(SPEED, ONE_EXCUSE(NEVER)), SHEET(SPEED_WALK), 21);
    confirms("the first always", SHEET(SPEED, ONE_EXCUSE(NOT_FIRST)), SHEET(SPEED_WALK), 21);
    rejects("the first never", SHEET(SPEED, ONE_EXCUSE(FIRST)), SHEET(SPEED_WALK), 12, 0);
    rejects("an excuse that always holds", SHEET(SPEED, ONE_EXCUSE(ALWAYS)), SHEET(SPEED_WALK), 12, 0);
    rejects("the second of two", SHEET(SPEED, TWO_EXCUSES(NEVER, BOTH)), SHEET(SPEED_WALK), 12, 0);
    rejects("the first of two", SHEET(SPEED, TWO_EXCUSES(BOTH, NEVER)), SHEET(SPEED_WALK), 12, 0);
    group("walks for the speed wires");
}

/* Two wires that no cell sees, and the empty rule: all tables break it at each combination that is not excused. */
#define UNSEEN 2, 4, 7, 0, 0, TWO(1), 0

/* The tables break a rule at the place given first. */
static void broken_first(const char *name, const uint8_t *job, size_t length, uint64_t place)
{
    rejects(name, job, length, SHEET(TABLES(ROWS_1(0), ROWS_1(0))), 10, place);
    rejects(name, job, length, SHEET(TABLES(ROWS_1(1), ROWS_1(1))), 10, place);
}

static void lowest_not_excused(void)
{
    broken_first("no excuses", SHEET(UNSEEN, NO_EXCUSES), 0);
    broken_first("1 and 3", SHEET(UNSEEN, ONE_EXCUSE(FIRST)), 0);
    broken_first("0 and 2", SHEET(UNSEEN, ONE_EXCUSE(NOT_FIRST)), 1);
    broken_first("0 and 1", SHEET(UNSEEN, ONE_EXCUSE(1, 3)), 2);
    broken_first("0", SHEET(UNSEEN, ONE_EXCUSE(2, 1, 3)), 1);
    broken_first("0, 1 and 2", SHEET(UNSEEN, TWO_EXCUSES(NOT_FIRST, 1, 3)), 3);
    broken_first("0 and 2, and 1", SHEET(UNSEEN, TWO_EXCUSES(NOT_FIRST, 2, 0, 3)), 3);
    broken_first("never holds", SHEET(UNSEEN, ONE_EXCUSE(NEVER)), 0);
    broken_first("never holds, with all terms", SHEET(UNSEEN, ONE_EXCUSE(4, 0, 1, 2, 3)), 0);
    broken_first("0 and 2, and one that never holds", SHEET(UNSEEN, TWO_EXCUSES(NEVER, NOT_FIRST)), 1);
    confirms("always holds", SHEET(UNSEEN, ONE_EXCUSE(ALWAYS)), SHEET(J1_TABLES), 20);
    confirms("1 and 3, 0 and 2", SHEET(UNSEEN, TWO_EXCUSES(FIRST, NOT_FIRST)), SHEET(J1_TABLES), 20);
    confirms("J4, always holds", SHEET(J4, ONE_EXCUSE(ALWAYS)), SHEET(TABLES(ROWS_1(1), ROWS_1(0))), 20);
    confirms("J7, B 0, the wire never 1", SHEET(J7, ONE_EXCUSE(FIRST)), SHEET(TABLES(ROWS_1(0), ROWS_1(0))), 20);
    rejects("J7, B 1, the wire never 1", SHEET(J7, ONE_EXCUSE(FIRST)), SHEET(TABLES(ROWS_1(0), ROWS_1(1))), 10, 0);
    confirms("J7, B 1, the wire never 0", SHEET(J7, ONE_EXCUSE(NOT_FIRST)), SHEET(TABLES(ROWS_1(0), ROWS_1(1))), 20);
    rejects("J7, B 0, the wire never 0", SHEET(J7, ONE_EXCUSE(NOT_FIRST)), SHEET(TABLES(ROWS_1(0), ROWS_1(0))), 10, 1);
    group("the lowest combination that is not excused");
}

/* On the board above every step between the cells holds by a combination that is not excused: here by all but 3. */
static void walks_through(void)
{
    static const uint8_t job[] = {UNSEEN, ONE_EXCUSE(BOTH)};
    confirms("by 0, 1 and 2", job, sizeof job, SHEET(WALK(4, ENTRY(0, 0), ENTRY(2, 1), ENTRY(1, 2), ENTRY(2, 0))), 21);
    for (unsigned entry = 0; entry < 4; entry++) {
        uint8_t walk[] = {J4_WALK};
        walk[8 + 4 * entry] = 3;
        rejects("one entry by 3", job, sizeof job, walk, sizeof walk, 12, entry);
        walk[8 + 4 * 3] = 3;
        rejects("and the last", job, sizeof job, walk, sizeof walk, 12, entry);
        confirms("no excuses", SHEET(UNSEEN, NO_EXCUSES), walk, sizeof walk, 21);
    }
    /* 12 is looked for before 13, and 11 before both. */
    rejects("by 3, and no opposite", job, sizeof job, SHEET(WALK(2, ENTRY(0, 0), ENTRY(2, 3))), 12, 1);
    rejects("no opposite", job, sizeof job, SHEET(WALK(2, ENTRY(0, 0), ENTRY(2, 2))), 13, 0);
    rejects("by 3, then by 4", job, sizeof job, SHEET(WALK(2, ENTRY(0, 3), ENTRY(2, 4))), 11, 12);
    /* Where all is excused no step holds. */
    rejects("J4, always holds", SHEET(J4, ONE_EXCUSE(ALWAYS)), SHEET(J4_WALK), 12, 0);
    group("walks through an excused combination");
}

/* Six wires that no cell sees, the empty rule, and an excuse for each combination but `left`, where that is one of the 64.
 * The excuse of combination a has the wire's plain term where the wire is 1 in a, and the negated one where it is 0. */
static size_t all_but(uint8_t *sheet, unsigned left)
{
    size_t at = rising_sheet(sheet, 6, 0, 0, 1, 0);
    sheet[at++] = left < 64 ? 63 : 64;
    sheet[at++] = 0;
    for (unsigned combination = 0; combination < 64; combination++) {
        if (combination == left)
            continue;
        sheet[at++] = 6;
        for (unsigned wire = 0; wire < 6; wire++)
            sheet[at++] = (uint8_t)(2 * wire + 1 - (combination >> wire & 1));
    }
    return at;
}

static void each_combination(void)
{
    uint8_t job[512];
    for (unsigned left = 0; left < 64; left++) {
        const uint8_t walk[] = {WALK(4, ENTRY(0, left), ENTRY(2, left), ENTRY(1, left), ENTRY(2, left))};
        const uint8_t other[] = {WALK(4, ENTRY(0, left), ENTRY(2, left), ENTRY(1, (left + 1) % 64), ENTRY(2, left))};
        size_t length = all_but(job, left);
        broken_first("all but one", job, length, left);
        confirms("a walk by the one", job, length, walk, sizeof walk, 21);
        rejects("a walk by the one and the next", job, length, other, sizeof other, 12, 2);
    }
    confirms("all", job, all_but(job, 64), SHEET(J1_TABLES), 20);
    rejects("a walk where all are excused", job, all_but(job, 64), SHEET(J4_WALK), 12, 0);
    group("64 combinations and their excuses");
}

/* 12 wires that no cell sees, the empty rule, and excuses for each wire at 0: 4,095 alone is left. One more excuse, with the
 * plain term of each wire, takes it too. */
static void most_wires(void)
{
    uint8_t job[128];
    size_t at = rising_sheet(job, 12, 0, 0, 1, 0), count_at = at;
    job[at++] = 12;
    job[at++] = 0;
    for (unsigned wire = 0; wire < 12; wire++) {
        job[at++] = 1;
        job[at++] = (uint8_t)(2 * wire + 1);
    }
    broken_first("4,095 left", job, at, 4095);
    confirms("a walk by 4,095", job, at,
             SHEET(WALK(4, ENTRY(0, 4095), ENTRY(2, 4095), ENTRY(1, 4095), ENTRY(2, 4095))), 21);
    rejects("a walk by 2,047 too", job, at,
            SHEET(WALK(4, ENTRY(0, 4095), ENTRY(2, 2047), ENTRY(1, 4095), ENTRY(2, 4095))), 12, 1);
    job[count_at]++;
    job[at++] = 12;
    for (unsigned wire = 0; wire < 12; wire++)
        job[at++] = (uint8_t)(2 * wire);
    confirms("none left", job, at, SHEET(J1_TABLES), 20);
    group("twelve wires");
}

/* Excuses change neither the rows of a table nor how an answer is read: rows that only excused combinations show count. */
static void answers_read(void)
{
    static const uint8_t job[] = {SPEED, ONE_EXCUSE(ALWAYS)};
    answer_prefixes("part of the tables", job, sizeof job, SHEET(SPEED_TABLES));
    answer_prefixes("part of the walk", job, sizeof job, SHEET(SPEED_WALK));
    rejects("the tables and a byte", job, sizeof job, SHEET(SPEED_TABLES, 0), 7, 10);
    rejects("one row of A", job, sizeof job, SHEET(TABLES(ROWS_1(0), ROWS_2(0, 1))), 8, 0);
    rejects("one row of B", job, sizeof job, SHEET(TABLES(ROWS_2(0, 1), ROWS_1(0))), 8, 4);
    rejects("A's row 1 is 2", job, sizeof job, SHEET(TABLES(ROWS_2(0, 2), ROWS_2(0, 1))), 9, 3);
    rejects("claim 8", job, sizeof job, SHEET(WALK(1, ENTRY(8, 0))), 11, 6);
    rejects("combination 4", job, sizeof job, SHEET(WALK(1, ENTRY(0, 4))), 11, 8);
    group("answers are read as before");
}

static void bad_jobs_first(void)
{
    static const uint8_t job[] = {J1, NO_EXCUSES}, tables[] = {J1_TABLES};
    refuses_any("J1 in form one", SHEET(J1), 1, 5);
    refuses_any("half of the count", SHEET(J1, 0), 1, 6);
    refuses_any("65 excuses", SHEET(J1, TWO(65)), 2, 5);
    refuses_any("a term of no wires", SHEET(J1, ONE_EXCUSE(1, 0)), 2, 7);
    refuses_any("equal terms", SHEET(TWO_WIRES, ONE_EXCUSE(2, 1, 1)), 3, 11);
    refuses_any("term 2n", SHEET(TWO_WIRES, ONE_EXCUSE(1, 4)), 4, 10);
    refuses_any("no excuses, and a byte", SHEET(J1, NO_EXCUSES, 0), 5, 7);
    refuses_any("longest sheet and a byte", longest, LONGEST + 1, 5, LONGEST);
    judge("no job, no answer", 0, ormsvelg_check_two(NULL, 0, NULL, 0), 0x0101);
    judge("no answer", 0, ormsvelg_check_two(job, sizeof job, NULL, 0), 0x0207);
    judge("form one's checker", sizeof job, ormsvelg_check(job, sizeof job, tables, sizeof tables), 5 | 1 << 8 | 5 << 16);
    group("bad jobs before their answers");
}

static void reader(void)
{
    listed_sheets();
    speed_sheet();
    longest_sheet();
    excuse_counts();
    term_counts();
    term_limits();
    rising_terms();
    first_faults();
}

static void checker(void)
{
    listed_answers();
    speed_tables();
    speed_walks();
    lowest_not_excused();
    walks_through();
    each_combination();
    most_wires();
    answers_read();
    bad_jobs_first();
}

int main(void)
{
    begin((struct calls){ormsvelg_read_two, ormsvelg_check_two});
    reader();
    checker();
    return verdict("form two");
}
