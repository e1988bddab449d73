/* host/test.c: the reader's and the checker's outcomes through the C face, over the static library, for sheets of form one.
 * Every expected number is written by hand from the papers' rules and their list of sheets; none comes from a
 * program. Codes are written as the papers' numbers, so that the header's names are tested too.
 */
#include "guarded.h"

#define LONGEST 7457
#define LONGEST_ANSWER 8190

static uint8_t longest[ROOM], longest_walk[ROOM];

static void listed_sheets(void)
{
    accepts("J1", SHEET(J1));
    accepts("J2", SHEET(J2));
    accepts("J3", SHEET(J3));
    accepts("J4", SHEET(J4));
    accepts("J5", SHEET(J5));
    accepts("J6", SHEET(J6));
    accepts("J7", SHEET(J7));
    accepts("J6 widened", SHEET(J6_WIDE));
    accepts("equal when the wires are", SHEET(PARITY));
    group("listed sheets");
}

static void listed_refusals(void)
{
    judge("null pointer", 0, ormsvelg_read(NULL, 0), 0x0101);
    refuses("empty job", longest, 0, 1, 0);
    refuses("0D", SHEET(0x0D), 2, 0);
    refuses("J1 and a byte", SHEET(J1, 0), 5, 5);
    refuses("J1 and two bytes", SHEET(J1, 9, 9), 5, 5);
    refuses("J4 and a byte", SHEET(J4, 0xFF), 5, 6);
    group("listed refusals");
}

static void every_prefix(void)
{
    prefixes("part of J2", SHEET(J2));
    prefixes("part of J3", SHEET(J3));
    prefixes("part of J4", SHEET(J4));
    prefixes("part of J5", SHEET(J5));
    prefixes("part of J6 widened", SHEET(J6_WIDE));
    prefixes("part of the longest sheet", longest, LONGEST);
    group("parts of sheets");
}

/* 12 wires, 8 seen by each cell, 256 rules of 28 terms. */
static void longest_sheet(void)
{
    judge("length of the longest sheet", LONGEST, rising_sheet(longest, 12, 8, 8, 256, 28), LONGEST);
    accepts("longest sheet", longest, LONGEST);
    refuses("longest sheet and a byte", longest, LONGEST + 1, 5, LONGEST);
    refuses("longest sheet and many bytes", longest, ROOM, 5, LONGEST);
    group("longest sheet");
}

static void rule_counts(void)
{
    uint8_t sheet[300];
    accepts("256 rules", sheet, rising_sheet(sheet, 0, 0, 0, 256, 0));
    refuses("257 rules", sheet, rising_sheet(sheet, 0, 0, 0, 257, 0), 2, 3);
    refuses("257 rules, none there", SHEET(0, 0, 0, 1, 1), 2, 3);
    refuses("65,535 rules", SHEET(0, 0, 0, 0xFF, 0xFF), 2, 3);
    refuses("512 rules, low byte 0", SHEET(0, 0, 0, 0, 2), 2, 3);
    accepts("255 rules", sheet, rising_sheet(sheet, 0, 0, 0, 255, 0));
    refuses("256 rules, 255 there", sheet, rising_sheet(sheet, 0, 0, 0, 256, 0) - 1, 1, 260);
    refuses("rule count, one byte of it, 0", SHEET(0, 0, 0, 0), 1, 4);
    refuses("rule count, one byte of it, 255", SHEET(0, 0, 0, 0xFF), 1, 4);
    group("rule counts");
}

static void wire_limits(void)
{
    uint8_t sheet[64];
    for (unsigned wires = 0; wires <= 12; wires++)
        accepts("0 to 12 wires", sheet, rising_sheet(sheet, wires, 0, 0, 0, 0));
    refuses("13 wires", sheet, rising_sheet(sheet, 13, 0, 0, 0, 0), 2, 0);
    refuses("255 wires, none there", SHEET(0xFF), 2, 0);
    group("wires at and above the limit");
}

/* With 12 wires A's count is at 13, and B's at 14 where A sees nothing. */
static void seen_limits(void)
{
    uint8_t sheet[64];
    for (unsigned seen = 0; seen <= 8; seen++) {
        accepts("A sees 0 to 8", sheet, rising_sheet(sheet, 12, seen, 0, 0, 0));
        accepts("B sees 0 to 8", sheet, rising_sheet(sheet, 12, 0, seen, 0, 0));
    }
    refuses("A sees 9", sheet, rising_sheet(sheet, 12, 9, 0, 0, 0), 2, 13);
    refuses("B sees 9", sheet, rising_sheet(sheet, 12, 0, 9, 0, 0), 2, 14);
    refuses("B sees 9, A 8", sheet, rising_sheet(sheet, 12, 8, 9, 0, 0), 2, 22);
    refuses("A sees 9 of no wires", SHEET(0, 9), 2, 1);
    group("seen wires at and above the limit");
}

/* Where the cells see nothing, the first rule is at wires + 5. */
static void term_limits(void)
{
    uint8_t sheet[128];
    for (unsigned wires = 0; wires <= 12; wires++) {
        unsigned most = 2 * wires + 4;
        accepts("2n+4 terms", sheet, rising_sheet(sheet, wires, 0, 0, 1, most));
        refuses("2n+5 terms", sheet, rising_sheet(sheet, wires, 0, 0, 1, most + 1), 2, wires + 5);
        size_t at = rising_sheet(sheet, wires, 0, 0, 1, 1);
        sheet[at - 1] = (uint8_t)(most - 1);
        accepts("term 2n+3", sheet, at);
        sheet[at - 1] = (uint8_t)most;
        refuses("term 2n+4", sheet, at, 4, wires + 6);
        sheet[at - 1] = 0xFF;
        refuses("term 255", sheet, at, 4, wires + 6);
    }
    refuses("5 terms in the second rule", SHEET(0, 0, 0, 2, 0, 0, 5), 2, 6);
    group("terms at and above the limits");
}

static void positions(void)
{
    accepts("A sees n-1", SHEET(2, 4, 7, 1, 1, 0, 0, 0));
    refuses("A sees n", SHEET(2, 4, 7, 1, 2, 0, 0, 0), 4, 4);
    refuses("A sees n, after another", SHEET(2, 4, 7, 2, 0, 2, 0, 0, 0), 4, 5);
    refuses("A sees 0 of no wires", SHEET(0, 1, 0, 0, 0, 0), 4, 2);
    refuses("B sees n", SHEET(2, 4, 7, 0, 1, 2, 0, 0), 4, 5);
    refuses("B sees 255", SHEET(2, 4, 7, 1, 0, 1, 0xFF, 0, 0), 4, 6);
    /* The limit of a cell's count is 8, not n: a count above n is read on. */
    refuses("A sees 3 of 2: a position n", SHEET(2, 4, 7, 3, 0, 1, 2, 0, 0, 0), 4, 6);
    refuses("A sees 3 of 2: an equal position", SHEET(2, 4, 7, 3, 0, 1, 1, 0, 0, 0), 3, 6);
    refuses("A sees 3 of 2: the end", SHEET(2, 4, 7, 3, 0, 1), 1, 6);
    group("wire positions");
}

static void rising_entries(void)
{
    accepts("pins 0 and 255", SHEET(2, 0, 255, 0, 0, 0, 0));
    refuses("equal pins", SHEET(2, 4, 4, 0, 0, 0, 0), 3, 2);
    refuses("equal pins 0", SHEET(2, 0, 0, 0, 0, 0, 0), 3, 2);
    refuses("equal pins 255", SHEET(2, 255, 255, 0, 0, 0, 0), 3, 2);
    refuses("falling pins", SHEET(3, 4, 7, 5, 0, 0, 0, 0), 3, 3);
    refuses("equal positions of A", SHEET(2, 4, 7, 2, 0, 0, 0, 0, 0), 3, 5);
    refuses("falling positions of A", SHEET(2, 4, 7, 2, 1, 0, 0, 0, 0), 3, 5);
    refuses("equal positions of B", SHEET(2, 4, 7, 0, 2, 1, 1, 0, 0), 3, 6);
    refuses("equal terms", SHEET(0, 0, 0, 1, 0, 2, 3, 3), 3, 7);
    refuses("falling terms", SHEET(0, 0, 0, 1, 0, 2, 3, 2), 3, 7);
    refuses("equal terms in the second rule", SHEET(0, 0, 0, 2, 0, 2, 0, 1, 3, 0, 2, 2), 3, 11);
    /* Each rule and each cell starts anew. */
    accepts("a rule that starts below the last", SHEET(0, 0, 0, 2, 0, 1, 3, 1, 0));
    accepts("equal rules, and one that always holds", SHEET(0, 0, 0, 3, 0, 1, 2, 1, 2, 2, 0, 1));
    accepts("B sees less high than A", SHEET(2, 4, 7, 1, 1, 1, 0, 0, 0));
    group("rising entries");
}

/* Sheets with several faults: the leftmost one decides, and a count is judged before its entries. */
static void first_faults(void)
{
    refuses("equal pins, then 9 seen", SHEET(2, 4, 4, 9), 3, 2);
    refuses("9 seen, then the end", SHEET(2, 4, 7, 9), 2, 3);
    refuses("position n, then 9 seen by B", SHEET(1, 4, 1, 1, 9), 4, 3);
    refuses("equal positions, then 257 rules", SHEET(2, 4, 7, 0, 2, 1, 1, 1, 1), 3, 6);
    refuses("257 rules, then bytes", SHEET(0, 0, 0, 1, 1, 9, 9), 2, 3);
    refuses("term 2n+4, then an equal one", SHEET(0, 0, 0, 1, 0, 2, 4, 4), 4, 6);
    refuses("equal terms, then 2n+4", SHEET(0, 0, 0, 1, 0, 3, 2, 2, 4), 3, 7);
    refuses("a rule fewer, 5 terms left over", SHEET(0, 0, 0, 1, 0, 0, 5), 5, 6);
    group("first faults");
}

static void listed_answers(void)
{
    confirms("J1: A 0, B 0", SHEET(J1), SHEET(J1_TABLES), 20);
    confirms("J2: A 00, B 11", SHEET(J2), SHEET(J2_TABLES), 20);
    confirms("J3's walk", SHEET(J3), SHEET(J3_WALK), 21);
    confirms("J4's walk", SHEET(J4), SHEET(J4_WALK), 21);
    confirms("J5: A 0, B 1", SHEET(J5), SHEET(J5_TABLES), 20);
    rejects("J5's walk", SHEET(J5), SHEET(J5_WALK), 13, 0);
    confirms("J6: A 0, B 01", SHEET(J6), SHEET(J6_TABLES), 20);
    confirms("J7's walk", SHEET(J7), SHEET(J7_WALK), 21);
    confirms("J6 widened: A 00, B 01", SHEET(J6_WIDE), SHEET(TABLES(ROWS_2(0, 0), ROWS_2(0, 1))), 20);
    confirms("equal when the wires are: A 01, B 01", SHEET(PARITY), SHEET(TABLES(ROWS_2(0, 1), ROWS_2(0, 1))), 20);
    rejects("J1: the walk (0,0)", SHEET(J1), SHEET(WALK(1, ENTRY(0, 0))), 12, 0);
    group("listed answers");
}

/* Any fitting pair is taken, not the first alone. J1 has no rules; in J2 and J5 A and B must differ, in J2 for each
 * value of the wire; in J6 B is the wire, and A is free; where A and B are equal as the wires are, both may be turned. */
static void other_pairs(void)
{
    confirms("J1: A 1, B 0", SHEET(J1), SHEET(TABLES(ROWS_1(1), ROWS_1(0))), 20);
    confirms("J1: A 1, B 1", SHEET(J1), SHEET(TABLES(ROWS_1(1), ROWS_1(1))), 20);
    confirms("J2: A 11, B 00", SHEET(J2), SHEET(TABLES(ROWS_2(1, 1), ROWS_2(0, 0))), 20);
    confirms("J2: A 01, B 10", SHEET(J2), SHEET(TABLES(ROWS_2(0, 1), ROWS_2(1, 0))), 20);
    confirms("J5: A 1, B 0", SHEET(J5), SHEET(TABLES(ROWS_1(1), ROWS_1(0))), 20);
    confirms("J6: A 1, B 01", SHEET(J6), SHEET(TABLES(ROWS_1(1), ROWS_2(0, 1))), 20);
    confirms("J6 widened: A 10, B 01", SHEET(J6_WIDE), SHEET(TABLES(ROWS_2(1, 0), ROWS_2(0, 1))), 20);
    confirms("equal when the wires are: A 10, B 10", SHEET(PARITY), SHEET(TABLES(ROWS_2(1, 0), ROWS_2(1, 0))), 20);
    group("other fitting pairs");
}

/* The place of 10 is the lowest combination at which a rule is broken. */
static void wrong_tables(void)
{
    /* A and B are equal in row 0, which combination 0 shows; then in row 1 alone. */
    rejects("J2: A 00, B 00", SHEET(J2), SHEET(TABLES(ROWS_2(0, 0), ROWS_2(0, 0))), 10, 0);
    rejects("J2: A 11, B 11", SHEET(J2), SHEET(TABLES(ROWS_2(1, 1), ROWS_2(1, 1))), 10, 0);
    rejects("J2: A 00, B 10", SHEET(J2), SHEET(TABLES(ROWS_2(0, 0), ROWS_2(1, 0))), 10, 1);
    rejects("J2: A 01, B 11", SHEET(J2), SHEET(TABLES(ROWS_2(0, 1), ROWS_2(1, 1))), 10, 1);
    /* The empty rule is broken by all tables, and there is but the combination 0. */
    rejects("J4: A 0, B 0", SHEET(J4), SHEET(TABLES(ROWS_1(0), ROWS_1(0))), 10, 0);
    rejects("J4: A 1, B 1", SHEET(J4), SHEET(TABLES(ROWS_1(1), ROWS_1(1))), 10, 0);
    /* The first of its two rules is broken, then the second. */
    rejects("J5: A 0, B 0", SHEET(J5), SHEET(TABLES(ROWS_1(0), ROWS_1(0))), 10, 0);
    rejects("J5: A 1, B 1", SHEET(J5), SHEET(TABLES(ROWS_1(1), ROWS_1(1))), 10, 0);
    /* B is 0 where the wire is 1; then 1 where the wire is 0. */
    rejects("J6: A 0, B 00", SHEET(J6), SHEET(TABLES(ROWS_1(0), ROWS_2(0, 0))), 10, 1);
    rejects("J6: A 0, B 11", SHEET(J6), SHEET(TABLES(ROWS_1(0), ROWS_2(1, 1))), 10, 0);
    /* B's one row can't equal the wire: 0 fails where the wire is 1, and 1 where it is 0. */
    rejects("J7: A 0, B 0", SHEET(J7), SHEET(TABLES(ROWS_1(0), ROWS_1(0))), 10, 1);
    rejects("J7: A 0, B 1", SHEET(J7), SHEET(TABLES(ROWS_1(0), ROWS_1(1))), 10, 0);
    /* A is the first wire. B's row 0 is 0, right at 0 and 1; its row 1, first shown at 2, is 0 and equals A there,
     * where the wires differ. With B's row 0 turned, A and B differ at 0, where the wires are equal. */
    rejects("equal when the wires are: A 01, B 00", SHEET(PARITY), SHEET(TABLES(ROWS_2(0, 1), ROWS_2(0, 0))), 10, 2);
    rejects("equal when the wires are: A 01, B 10", SHEET(PARITY), SHEET(TABLES(ROWS_2(0, 1), ROWS_2(1, 0))), 10, 0);
    /* B is the second wire. A's row 1, first shown at 1, is 0 and equals B there, where the wires differ. */
    rejects("equal when the wires are: A 00, B 01", SHEET(PARITY), SHEET(TABLES(ROWS_2(0, 0), ROWS_2(0, 1))), 10, 1);
    group("tables that break a rule");
}

/* Three wires, of weights 1, 2 and 4. A sees the first and the third and must equal the third; B sees the second and
 * the third and must equal the second. So a row's low digit is the lower wire: A 0011, B 0101. The terms of the second
 * wire are 2 and 3, of the third 4 and 5, of A 6 and 7, of B 8 and 9. */
#define THREE_WIRES 3, 1, 2, 3, 2, 0, 2, 2, 1, 2, 4, 0, 2, 5, 6, 2, 4, 7, 2, 3, 8, 2, 2, 9

static void row_numbers(void)
{
    confirms("A 0011, B 0101", SHEET(THREE_WIRES), SHEET(TABLES(ROWS_4(0, 0, 1, 1), ROWS_4(0, 1, 0, 1))), 20);
    /* A's row 1: the first wire alone, 1. Row 2: the third alone, 4. Row 3: both, 5. */
    rejects("A 0101", SHEET(THREE_WIRES), SHEET(TABLES(ROWS_4(0, 1, 0, 1), ROWS_4(0, 1, 0, 1))), 10, 1);
    rejects("A 0001", SHEET(THREE_WIRES), SHEET(TABLES(ROWS_4(0, 0, 0, 1), ROWS_4(0, 1, 0, 1))), 10, 4);
    rejects("A 0010", SHEET(THREE_WIRES), SHEET(TABLES(ROWS_4(0, 0, 1, 0), ROWS_4(0, 1, 0, 1))), 10, 5);
    /* B's row 1: the second wire alone, 2. Row 2: the third alone, 4. Row 3: both, 6. */
    rejects("B 0011", SHEET(THREE_WIRES), SHEET(TABLES(ROWS_4(0, 0, 1, 1), ROWS_4(0, 0, 1, 1))), 10, 2);
    rejects("B 0111", SHEET(THREE_WIRES), SHEET(TABLES(ROWS_4(0, 0, 1, 1), ROWS_4(0, 1, 1, 1))), 10, 4);
    rejects("B 0100", SHEET(THREE_WIRES), SHEET(TABLES(ROWS_4(0, 0, 1, 1), ROWS_4(0, 1, 0, 0))), 10, 6);
    /* Both wrong, A first at 5 and B first at 2; A first at 1 and B first at 2. */
    rejects("A 0010, B 0001", SHEET(THREE_WIRES), SHEET(TABLES(ROWS_4(0, 0, 1, 0), ROWS_4(0, 0, 0, 1))), 10, 2);
    rejects("A 0111, B 0001", SHEET(THREE_WIRES), SHEET(TABLES(ROWS_4(0, 1, 1, 1), ROWS_4(0, 0, 0, 1))), 10, 1);
    group("rows of the tables");
}

/* Writes two tables of 256 rows, all 0, and gives the length, 518. A's rows are from 2 on, B's from 260 on. */
static size_t largest_tables(uint8_t *sheet)
{
    memset(sheet, 0, 518);
    sheet[1] = sheet[259] = 1;
    return 518;
}

/* 12 wires, the first 8 seen by both cells. The one rule, from 33 on, has the negated term of each wire and the plain
 * one of A, 24: A must be 1 where all wires are, at 4,095, which shows row 255. */
static void largest_board(void)
{
    uint8_t job[64], tables[518];
    size_t length = rising_sheet(job, 12, 8, 8, 1, 13);
    for (unsigned wire = 0; wire < 12; wire++)
        job[34 + wire] = (uint8_t)(2 * wire + 1);
    job[46] = 24;
    size_t tables_length = largest_tables(tables);
    rejects("A's row 255 is 0", job, length, tables, tables_length, 10, 4095);
    tables[2 + 255] = 1;
    confirms("A's row 255 is 1", job, length, tables, tables_length, 20);
    /* With B's plain term, 26, in the place of A's the same is asked of B's table. */
    job[46] = 26;
    rejects("B's row 255 is 0", job, length, tables, tables_length, 10, 4095);
    tables[260 + 255] = 1;
    confirms("B's row 255 is 1", job, length, tables, tables_length, 20);
    answer_prefixes("part of the largest tables", job, length, tables, tables_length);
    group("largest board");
}

/* No wires, 256 rules: 255 that always hold, A or not A, and A alone as the last, whose term is the last byte. */
static void last_rule(void)
{
    uint8_t job[1024];
    size_t length = rising_sheet(job, 0, 0, 0, 256, 2) - 1;
    job[length - 2] = 1;
    confirms("A 1", job, length, SHEET(TABLES(ROWS_1(1), ROWS_1(0))), 20);
    rejects("A 0", job, length, SHEET(TABLES(ROWS_1(0), ROWS_1(0))), 10, 0);
    group("the last of 256 rules");
}

/* J3's walk with another claim and combination at one entry: 12 at the place given. */
static void breaks_walk(const char *name, unsigned entry, uint8_t claim, uint8_t combination, uint64_t place)
{
    uint8_t walk[] = {J3_WALK};
    walk[6 + 4 * entry] = claim;
    walk[8 + 4 * entry] = combination;
    rejects(name, SHEET(J3), walk, sizeof walk, 12, place);
}

/* In J3 A sees the first wire and has rows 0 and 1, B the second and has rows 2 and 3, so combination 0 shows rows 0
 * and 2, 1 shows 1 and 2, 2 shows 0 and 3, 3 shows 1 and 3. Entry 3 of the walk is (6,2), 4 is (1,0), 5 is (5,0). */
static void changed_walks(void)
{
    /* The step from 0 to 7 needs row 3 of B, and 0 shows row 2. */
    breaks_walk("entry 0 by 0", 0, 0, 0, 0);
    /* The step from 6 to 1 needs row 0 of A, and 3 shows row 1. */
    breaks_walk("entry 3 by 3", 3, 6, 3, 3);
    /* The step back from 5 to 0 needs row 2 of B, and 2 shows row 3. */
    breaks_walk("entry 5 by 2", 5, 5, 2, 5);
    /* From 6 to 0 by 2: B is 0 and A is 1 where the first wire is 0 and the second 1, and no rule is broken. */
    breaks_walk("entry 4 turned", 4, 0, 0, 3);
    /* With a claim of B at 4 the steps to it and from it both stay in B; the lower one is told. */
    breaks_walk("entry 4 in B", 4, 4, 0, 3);
    /* From 3 to 1 by 3: two claims of A. */
    rejects("entry 3 left out", SHEET(J3),
            SHEET(WALK(5, ENTRY(0, 2), ENTRY(7, 3), ENTRY(3, 3), ENTRY(1, 0), ENTRY(5, 0))), 12, 2);
    /* All steps hold wherever it begins. Begun at 3 it lacks the opposite, 2; begun at 6 it has 7. */
    rejects("begun at 3", SHEET(J3),
            SHEET(WALK(6, ENTRY(3, 3), ENTRY(6, 2), ENTRY(1, 0), ENTRY(5, 0), ENTRY(0, 2), ENTRY(7, 3))), 13, 0);
    confirms("begun at 6", SHEET(J3),
             SHEET(WALK(6, ENTRY(6, 2), ENTRY(1, 0), ENTRY(5, 0), ENTRY(0, 2), ENTRY(7, 3), ENTRY(3, 3))), 21);
    group("J3's walk, changed");
}

/* The claims are 0 and 1 for A, 2 and 3 for B. In J4 every step between the cells holds, in J5 one that leaves A
 * equal to B, in J7 one that leaves B unequal to the wire; where a step goes to a claim, that claim is left false. */
static void small_walks(void)
{
    rejects("J4: one entry", SHEET(J4), SHEET(WALK(1, ENTRY(0, 0))), 12, 0);
    rejects("J4: from a claim to its opposite", SHEET(J4), SHEET(WALK(2, ENTRY(0, 0), ENTRY(1, 0))), 12, 0);
    rejects("J4: B twice", SHEET(J4), SHEET(WALK(3, ENTRY(0, 0), ENTRY(2, 0), ENTRY(3, 0))), 12, 1);
    rejects("J4: an odd number of entries", SHEET(J4), SHEET(WALK(3, ENTRY(0, 0), ENTRY(2, 0), ENTRY(1, 0))), 12, 2);
    rejects("J4: no opposite", SHEET(J4), SHEET(WALK(2, ENTRY(1, 0), ENTRY(3, 0))), 13, 0);
    rejects("J4: the opposite of the second claim alone", SHEET(J4),
            SHEET(WALK(4, ENTRY(0, 0), ENTRY(2, 0), ENTRY(0, 0), ENTRY(3, 0))), 13, 0);
    confirms("J4: from B, the opposite last but one", SHEET(J4),
             SHEET(WALK(6, ENTRY(3, 0), ENTRY(0, 0), ENTRY(3, 0), ENTRY(0, 0), ENTRY(2, 0), ENTRY(0, 0))), 21);
    /* From 1 to 2 both are 1. From 0 to 2 A is 0 and B 1; from 3 to 1 too. */
    rejects("J5: from 1 to 2 and back", SHEET(J5), SHEET(WALK(2, ENTRY(1, 0), ENTRY(2, 0))), 13, 0);
    rejects("J5: from 0 to 2", SHEET(J5), SHEET(WALK(2, ENTRY(0, 0), ENTRY(2, 0))), 12, 0);
    rejects("J5: from 3 to 1", SHEET(J5), SHEET(WALK(4, ENTRY(0, 0), ENTRY(3, 0), ENTRY(1, 0), ENTRY(3, 0))), 12, 1);
    /* From 2 by 1 B is 0 and the wire 1; from 1 to 2 B is 1, and the wire is 0 by 0 and 1 by 1. */
    rejects("J7: no opposite", SHEET(J7), SHEET(WALK(2, ENTRY(2, 1), ENTRY(1, 0))), 13, 0);
    rejects("J7: no step back", SHEET(J7), SHEET(WALK(2, ENTRY(2, 1), ENTRY(1, 1))), 12, 1);
    group("small walks");
}

/* One wire that both cells see, and the empty rule: a step holds exactly if it goes between the cells and its
 * combination shows both rows. Combination 0 shows A's row 0, claims 0 and 1, and B's row 2, claims 4 and 5;
 * combination 1 shows rows 1 and 3, claims 2 and 3, 6 and 7. */
#define ALWAYS_BROKEN 1, 4, 1, 0, 1, 0, 1, 0, 0

static void rows_shown(void)
{
    confirms("by 0", SHEET(ALWAYS_BROKEN), SHEET(WALK(4, ENTRY(0, 0), ENTRY(4, 0), ENTRY(1, 0), ENTRY(4, 0))), 21);
    confirms("by 1", SHEET(ALWAYS_BROKEN), SHEET(WALK(4, ENTRY(6, 1), ENTRY(3, 1), ENTRY(7, 1), ENTRY(2, 1))), 21);
    rejects("from A's row 1 by 0", SHEET(ALWAYS_BROKEN), SHEET(WALK(2, ENTRY(2, 0), ENTRY(4, 0))), 12, 0);
    rejects("from A to row 3 by 0", SHEET(ALWAYS_BROKEN), SHEET(WALK(2, ENTRY(0, 0), ENTRY(6, 0))), 12, 0);
    rejects("from B's row 3 by 0", SHEET(ALWAYS_BROKEN), SHEET(WALK(2, ENTRY(6, 0), ENTRY(0, 0))), 12, 0);
    rejects("from B to row 1 by 0", SHEET(ALWAYS_BROKEN), SHEET(WALK(2, ENTRY(4, 0), ENTRY(2, 0))), 12, 0);
    rejects("back by 1", SHEET(ALWAYS_BROKEN), SHEET(WALK(2, ENTRY(0, 0), ENTRY(4, 1))), 12, 1);
    rejects("no opposite", SHEET(ALWAYS_BROKEN), SHEET(WALK(2, ENTRY(2, 1), ENTRY(6, 1))), 13, 0);
    group("rows shown by a walk's combinations");
}

/* Writes a walk from 0 to 2 and back, again and again, by combination 0. Entry e is at 6 + 4e. */
static size_t long_walk(uint8_t *sheet, unsigned count)
{
    memset(sheet, 0, 6 + 4 * (size_t)count);
    sheet[4] = (uint8_t)(count & 0xFF);
    sheet[5] = (uint8_t)(count >> 8);
    for (unsigned entry = 1; entry < count; entry += 2)
        sheet[6 + 4 * entry] = 2;
    return 6 + 4 * (size_t)count;
}

/* For J4, where every step between the cells holds. Entries of even number are claims of A, those of odd number of B. */
static void long_walks(void)
{
    size_t length = long_walk(longest_walk, 2046);
    judge("length of the longest answer", LONGEST_ANSWER, length, LONGEST_ANSWER);
    rejects("2,046 entries, no opposite", SHEET(J4), longest_walk, length, 13, 0);
    longest_walk[6 + 4 * 2044] = 1;
    confirms("2,046 entries, the opposite at 2,044", SHEET(J4), longest_walk, length, 21);
    answer_prefixes("part of the longest answer", SHEET(J4), longest_walk, length);
    rejects("longest answer and a byte", SHEET(J4), longest_walk, length + 1, 7, LONGEST_ANSWER);
    rejects("longest answer and many bytes", SHEET(J4), longest_walk, ROOM, 7, LONGEST_ANSWER);
    /* Claim 0 as the last entry: the step to it from 2,044 stays in A. */
    longest_walk[6 + 4 * 2045] = 0;
    rejects("2,046 entries, A twice", SHEET(J4), longest_walk, length, 12, 2044);
    longest_walk[6 + 4 * 2045] = 4;
    rejects("2,046 entries, the last claim 4", SHEET(J4), longest_walk, length, 11, 6 + 4 * 2045);
    rejects("2,045 entries, from A to A", SHEET(J4), longest_walk, long_walk(longest_walk, 2045), 12, 2044);
    rejects("2,047 entries", SHEET(J4), longest_walk, long_walk(longest_walk, 2047), 8, 4);
    group("long walks");
}

/* Every count and number of these is right, so a part of one ends where a byte is called for. */
static void answer_lengths(void)
{
    answer_prefixes("part of J1's tables", SHEET(J1), SHEET(J1_TABLES));
    answer_prefixes("part of J2's tables", SHEET(J2), SHEET(J2_TABLES));
    answer_prefixes("part of J6's tables", SHEET(J6), SHEET(J6_TABLES));
    answer_prefixes("part of J3's walk", SHEET(J3), SHEET(J3_WALK));
    /* Half a number is not judged, whatever the byte. */
    rejects("half of the first count", SHEET(J2), SHEET(0xFF), 7, 1);
    rejects("half of the second count", SHEET(J2), SHEET(ROWS_2(0, 0), 0xFF), 7, 5);
    rejects("half of a walk's third count", SHEET(J2), SHEET(TWO(0), TWO(0), 0xFF), 7, 5);
    rejects("half of a claim", SHEET(J2), SHEET(WALK(1, 0xFF)), 7, 7);
    rejects("half of a combination", SHEET(J2), SHEET(WALK(1, TWO(0), 0xFF)), 7, 9);
    rejects("J1's tables and a byte", SHEET(J1), SHEET(J1_TABLES, 0), 7, 8);
    rejects("J2's tables and three bytes", SHEET(J2), SHEET(J2_TABLES, 1, 0, 0xFF), 7, 10);
    rejects("J3's walk and a byte", SHEET(J3), SHEET(J3_WALK, 0xFF), 7, 30);
    /* Bytes over come before 10, 12 and 13. */
    rejects("J5: A 0, B 0, and a byte", SHEET(J5), SHEET(TABLES(ROWS_1(0), ROWS_1(0)), 0), 7, 8);
    rejects("J1: the walk (0,0), and a byte", SHEET(J1), SHEET(WALK(1, ENTRY(0, 0)), 0), 7, 10);
    rejects("J5's walk, and a byte", SHEET(J5), SHEET(J5_WALK, 0), 7, 14);
    group("answers that end early or have bytes over");
}

/* In J2 each cell has two rows: a table of A ends at 4, one of B at 8. */
static void answer_counts(void)
{
    rejects("one row of A", SHEET(J2), SHEET(TABLES(ROWS_1(0), ROWS_2(1, 1))), 8, 0);
    rejects("three rows of A, none there", SHEET(J2), SHEET(TWO(3)), 8, 0);
    rejects("258 rows of A, low byte 2", SHEET(J2), SHEET(TWO(258), 0, 0, ROWS_2(1, 1), TWO(0)), 8, 0);
    rejects("256 rows of A, low byte 0", SHEET(J2), SHEET(TWO(256), TWO(0), TWO(1), ENTRY(0, 0)), 8, 0);
    rejects("one row of B", SHEET(J2), SHEET(TABLES(ROWS_2(0, 0), ROWS_1(1))), 8, 4);
    rejects("no row of B", SHEET(J2), SHEET(ROWS_2(0, 0), TWO(0), TWO(0)), 8, 4);
    rejects("258 rows of B, low byte 2", SHEET(J2), SHEET(ROWS_2(0, 0), TWO(258), 1, 1, TWO(0)), 8, 4);
    rejects("tables and a walk", SHEET(J2), SHEET(ROWS_2(0, 0), ROWS_2(1, 1), TWO(1), ENTRY(0, 0)), 8, 8);
    rejects("tables and 256 entries, low byte 0", SHEET(J2), SHEET(ROWS_2(0, 0), ROWS_2(1, 1), TWO(256)), 8, 8);
    rejects("the rows of B alone", SHEET(J2), SHEET(TWO(0), ROWS_2(1, 1), TWO(0)), 8, 2);
    rejects("a walk, one row of B", SHEET(J2), SHEET(TWO(0), TWO(1)), 8, 2);
    rejects("a walk, 256 rows of B, low byte 0", SHEET(J2), SHEET(TWO(0), TWO(256), TWO(1), ENTRY(0, 0)), 8, 2);
    rejects("no entry", SHEET(J2), SHEET(TWO(0), TWO(0), TWO(0)), 8, 4);
    rejects("2,047 entries, none there", SHEET(J2), SHEET(TWO(0), TWO(0), TWO(2047)), 8, 4);
    rejects("65,535 entries", SHEET(J2), SHEET(TWO(0), TWO(0), TWO(65535)), 8, 4);
    rejects("2,046 entries, none there", SHEET(J2), SHEET(TWO(0), TWO(0), TWO(2046)), 7, 6);
    /* J6 has one row of A and two of B; the two counts are not exchanged. */
    rejects("J6: two rows of A", SHEET(J6), SHEET(TABLES(ROWS_2(0, 1), ROWS_1(0))), 8, 0);
    rejects("J6: one row of B", SHEET(J6), SHEET(TABLES(ROWS_1(0), ROWS_1(0))), 8, 3);
    group("counts of neither kind");
}

static void table_bytes(void)
{
    rejects("A's row 0 is 2", SHEET(J2), SHEET(TABLES(ROWS_2(2, 0), ROWS_2(1, 1))), 9, 2);
    rejects("A's row 1 is 255", SHEET(J2), SHEET(TABLES(ROWS_2(0, 255), ROWS_2(1, 1))), 9, 3);
    rejects("B's row 0 is 2", SHEET(J2), SHEET(TABLES(ROWS_2(0, 0), ROWS_2(2, 1))), 9, 6);
    rejects("B's row 1 is 128", SHEET(J2), SHEET(TABLES(ROWS_2(0, 0), ROWS_2(1, 128))), 9, 7);
    rejects("two of them", SHEET(J2), SHEET(TABLES(ROWS_2(0, 2), ROWS_2(2, 1))), 9, 3);
    /* A table byte stands before the counts after it, and before what is not there. */
    rejects("A's row 1, then one row of B", SHEET(J2), SHEET(ROWS_2(0, 2), ROWS_1(1), TWO(0)), 9, 3);
    rejects("A's row 0, then the end", SHEET(J2), SHEET(TWO(2), 2), 9, 2);
    rejects("B's row 1, then a walk", SHEET(J2), SHEET(ROWS_2(0, 0), ROWS_2(1, 2), TWO(1)), 9, 7);
    rejects("B's row 1, then bytes over", SHEET(J2), SHEET(TABLES(ROWS_2(0, 0), ROWS_2(1, 2)), 0), 9, 7);
    /* Reading comes before judging: A 00, B 0 breaks a rule at 0. */
    rejects("B's row 1, a rule broken before", SHEET(J2), SHEET(TABLES(ROWS_2(0, 0), ROWS_2(0, 2))), 9, 7);
    group("table bytes above 1");
}

/* J4 has 2 rows, 4 claims and 1 combination; J3 has 4 rows, 8 claims and 4 combinations; 12 wires with 8 seen by each
 * cell make 512 rows, 1,024 claims and 4,096 combinations. */
static void numbers_out_of_range(void)
{
    uint8_t job[64];
    size_t length = rising_sheet(job, 12, 8, 8, 0, 0);
    rejects("J4: claim 4", SHEET(J4), SHEET(WALK(1, ENTRY(4, 0))), 11, 6);
    rejects("J4: claim 256, low byte 0", SHEET(J4), SHEET(WALK(1, ENTRY(256, 0))), 11, 6);
    rejects("J4: combination 1", SHEET(J4), SHEET(WALK(1, ENTRY(0, 1))), 11, 8);
    rejects("J4: combination 256, low byte 0", SHEET(J4), SHEET(WALK(1, ENTRY(0, 256))), 11, 8);
    rejects("J4: both", SHEET(J4), SHEET(WALK(1, ENTRY(4, 1))), 11, 6);
    rejects("J4: claim 4, then the end", SHEET(J4), SHEET(WALK(1, TWO(4))), 11, 6);
    rejects("J4: combination 1, then the end", SHEET(J4), SHEET(WALK(2, ENTRY(0, 1))), 11, 8);
    rejects("J4: combination 1, then bytes over", SHEET(J4), SHEET(WALK(1, ENTRY(0, 1)), 0), 11, 8);
    rejects("J3: claim 8 as the third", SHEET(J3), SHEET(WALK(3, ENTRY(0, 2), ENTRY(7, 3), ENTRY(8, 3))), 11, 14);
    rejects("J3: combination 4 as the third", SHEET(J3), SHEET(WALK(3, ENTRY(0, 2), ENTRY(7, 3), ENTRY(3, 4))), 11, 16);
    /* Reading comes before judging: (0,0) to 0 does not hold. */
    rejects("J3: claim 65,535 after a broken step", SHEET(J3),
            SHEET(WALK(3, ENTRY(0, 0), ENTRY(0, 0), ENTRY(65535, 0))), 11, 14);
    rejects("claim 1,023, combination 4,095", job, length, SHEET(WALK(1, ENTRY(1023, 4095))), 12, 0);
    rejects("claim 1,024", job, length, SHEET(WALK(1, ENTRY(1024, 0))), 11, 6);
    rejects("combination 4,096", job, length, SHEET(WALK(1, ENTRY(0, 4096))), 11, 8);
    group("claims and combinations out of range");
}

static void bad_jobs_first(void)
{
    refuses_any("empty job", longest, 0, 1, 0);
    refuses_any("J1 without its last byte", SHEET(0, 0, 0, 0), 1, 4);
    refuses_any("0D", SHEET(0x0D), 2, 0);
    refuses_any("257 rules", SHEET(0, 0, 0, 1, 1), 2, 3);
    refuses_any("equal pins", SHEET(2, 4, 4, 0, 0, 0, 0), 3, 2);
    refuses_any("A sees n", SHEET(2, 4, 7, 1, 2, 0, 0, 0), 4, 4);
    refuses_any("J1 and a byte", SHEET(J1, 0), 5, 5);
    refuses_any("longest sheet and a byte", longest, LONGEST + 1, 5, LONGEST);
    group("bad jobs before their answers");
}

/* A null pointer with length 0 is an empty sheet. */
static void null_sheets(void)
{
    static const uint8_t j1[] = {J1}, tables[] = {J1_TABLES};
    judge("no job, no answer", 0, ormsvelg_check(NULL, 0, NULL, 0), 0x0101);
    judge("no job", 0, ormsvelg_check(NULL, 0, tables, sizeof tables), 0x0101);
    judge("no answer", 0, ormsvelg_check(j1, sizeof j1, NULL, 0), 0x0207);
    rejects("J1, empty answer", SHEET(J1), longest_walk, 0, 7, 0);
    group("null sheets");
}

/* An outcome number: code in the low 8 bits, then sheet in 8, place in 24, bytes written in 24. */
static void outcome_numbers(void)
{
    uint64_t outcome = 0xABCDEF1234560215;
    judge("code", 0, ormsvelg_code(outcome), 0x15);
    judge("sheet", 0, ormsvelg_sheet(outcome), 0x02);
    judge("place", 0, ormsvelg_place(outcome), 0x123456);
    judge("written", 0, ormsvelg_written(outcome), 0xABCDEF);
    judge("code 0 to 5", 0, ORMSVELG_ACCEPTED == 0 && ORMSVELG_ENDS == 1 && ORMSVELG_TOO_MANY == 2 &&
          ORMSVELG_NOT_RISING == 3 && ORMSVELG_TOO_HIGH == 4 && ORMSVELG_LEFT_OVER == 5, 1);
    judge("code 7 to 10", 0, ORMSVELG_WRONG_LENGTH == 7 && ORMSVELG_OTHER_KIND == 8 && ORMSVELG_NOT_A_BIT == 9 &&
          ORMSVELG_BREAKS_RULE == 10, 1);
    judge("code 11 to 13, 20, 21", 0, ORMSVELG_OUT_OF_RANGE == 11 && ORMSVELG_NO_STEP == 12 &&
          ORMSVELG_NO_OPPOSITE == 13 && ORMSVELG_TABLES == 20 && ORMSVELG_WALK == 21, 1);
    judge("limits", 0, ORMSVELG_MOST_WIRES == 12 && ORMSVELG_MOST_SEEN == 8 && ORMSVELG_MOST_RULES == 256 &&
          ORMSVELG_LONGEST_JOB == LONGEST && ORMSVELG_LONGEST_ANSWER == LONGEST_ANSWER, 1);
    /* 5 at 7,457, which is 1D21 in hexadecimal; 7 at 8,190, which is 1FFE. */
    judge("5 at 7,457", LONGEST + 1, read_guarded(longest, LONGEST + 1), 0x1D210105);
    size_t length = long_walk(longest_walk, 2046) + 1;
    judge("7 at 8,190", length, check_guarded(SHEET(J4), longest_walk, length), 0x1FFE0207);
    group("outcome numbers");
}

static void reader(void)
{
    listed_sheets();
    listed_refusals();
    longest_sheet();
    every_prefix();
    rule_counts();
    wire_limits();
    seen_limits();
    term_limits();
    positions();
    rising_entries();
    first_faults();
}

static void checker(void)
{
    listed_answers();
    other_pairs();
    wrong_tables();
    row_numbers();
    largest_board();
    last_rule();
    changed_walks();
    small_walks();
    rows_shown();
    long_walks();
    answer_lengths();
    answer_counts();
    table_bytes();
    numbers_out_of_range();
    bad_jobs_first();
    null_sheets();
}

int main(void)
{
    begin((struct calls){ormsvelg_read, ormsvelg_check});
    reader();
    checker();
    outcome_numbers();
    return verdict("host");
}
