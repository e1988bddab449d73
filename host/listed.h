/* host/listed.h: the papers' sheets and their answers as bytes, and sheets built of rising entries. All is written by hand
 * from the papers' rules and their list of sheets; none comes from a program.
 */
#ifndef HOST_LISTED_H
#define HOST_LISTED_H

#include <stddef.h>
#include <stdint.h>

/* The bytes of a sheet that is written out in place, and their number. */
#define SHEET(...) (const uint8_t[]){__VA_ARGS__}, sizeof((const uint8_t[]){__VA_ARGS__})

/* Two bytes, the low one first. */
#define TWO(number) (number) & 0xFF, (number) >> 8

/* The sheets of the papers, as listed, in form one. With no wires A's terms are 0 and 1, B's 2 and 3; with one wire the
 * wire's are 0 and 1, A's 2 and 3, B's 4 and 5; with two wires A's are 4 and 5, B's 6 and 7. */
#define J1 0, 0, 0, 0, 0
#define J2 1, 4, 1, 0, 1, 0, 2, 0, 2, 2, 4, 2, 3, 5
#define J3 2, 4, 7, 1, 0, 1, 1, 6, 0, 4, 0, 3, 4, 6, 4, 1, 2, 4, 6, 3, 0, 2, 5, 3, 0, 2, 7, 3, 1, 3, 5, 3, 1, 3, 7
#define J4 0, 0, 0, 1, 0, 0
/* No wires, two rules: A or B, 0 and 2; not A or not B, 1 and 3. */
#define J5 0, 0, 0, 2, 0, 2, 0, 2, 2, 1, 3
/* B equals the wire, in two rules: the wire or not B, 0 and 5; not the wire or B, 1 and 4. */
#define EQUALS_WIRE 2, 0, 2, 0, 5, 2, 1, 4
/* One wire, on pin 4; A sees nothing, B the wire. */
#define J6 1, 4, 0, 1, 0, EQUALS_WIRE
/* J6 with B seeing nothing. */
#define J7 1, 4, 0, 0, EQUALS_WIRE
/* J6 with A seeing the wire too. */
#define J6_WIDE 1, 4, 1, 0, 1, 0, EQUALS_WIRE
/* Two wires, A sees the first, B the second; A equals B exactly when the wires are equal. So of the two wires,
 * A and B an even number are 1; each of the 8 ways to an odd number is forbidden by one rule of four terms, in
 * which what is 1 stands negated. */
#define PARITY 2, 4, 7, 1, 0, 1, 1, 8, 0, \
    4, 1, 2, 4, 6, 4, 0, 3, 4, 6, 4, 0, 2, 5, 6, 4, 0, 2, 4, 7, \
    4, 0, 3, 5, 7, 4, 1, 2, 5, 7, 4, 1, 3, 4, 7, 4, 1, 3, 5, 6

/* Two speed wires, A sees the first, B the second. Three rules: A is 1 where the first is, 1 and 4; B is 1 where the
 * second is, 3 and 6; A and B are not both 1, 5 and 7. No pair fits where both wires are 1, at 3, and nowhere else. */
#define SPEED_RULES 3, 0, 2, 1, 4, 2, 3, 6, 2, 5, 7
#define SPEED 2, 2, 3, 1, 0, 1, 1, SPEED_RULES

/* Form two has the excuses after the rules: their number, then each with its count of terms. */
#define NO_EXCUSES TWO(0)
#define ONE_EXCUSE(...) TWO(1), __VA_ARGS__
#define TWO_EXCUSES(...) TWO(2), __VA_ARGS__
/* An excuse that always holds, and one that never does. */
#define ALWAYS 0
#define NEVER 2, 0, 1
/* Excuses where the first wire is 1, where it is 0, where the second wire is 1; where the first two wires are both 1. */
#define FIRST 1, 0
#define NOT_FIRST 1, 1
#define SECOND 1, 2
#define BOTH 2, 0, 2

/* The parts of an answer sheet: a table of rows, two tables, an entry of a walk, a walk. */
#define ROWS_1(a) TWO(1), a
#define ROWS_2(a, b) TWO(2), a, b
#define ROWS_4(a, b, c, d) TWO(4), a, b, c, d
#define TABLES(table_a, table_b) table_a, table_b, TWO(0)
#define ENTRY(claim, combination) TWO(claim), TWO(combination)
#define WALK(count, ...) TWO(0), TWO(0), TWO(count), __VA_ARGS__

/* The answers of the papers, as listed. */
#define J1_TABLES 1, 0, 0, 1, 0, 0, 0, 0
#define J2_TABLES TABLES(ROWS_2(0, 0), ROWS_2(1, 1))
#define J3_WALK WALK(6, ENTRY(0, 2), ENTRY(7, 3), ENTRY(3, 3), ENTRY(6, 2), ENTRY(1, 0), ENTRY(5, 0))
#define J4_WALK WALK(4, ENTRY(0, 0), ENTRY(2, 0), ENTRY(1, 0), ENTRY(2, 0))
#define J5_TABLES TABLES(ROWS_1(0), ROWS_1(1))
#define J5_WALK WALK(2, ENTRY(0, 0), ENTRY(3, 0))
#define J6_TABLES TABLES(ROWS_1(0), ROWS_2(0, 1))
#define J7_WALK WALK(4, ENTRY(2, 1), ENTRY(1, 1), ENTRY(3, 0), ENTRY(1, 0))

/* Where both speed wires are never 1, each cell is its wire. */
#define SPEED_TABLES TABLES(ROWS_2(0, 1), ROWS_2(0, 1))
/* All by 3, which shows A's row 1, claims 2 and 3, and B's row 1, claims 6 and 7. From 3 to 6 both would be 1; 6 and 2
 * each break a rule by themselves, so that anything follows. */
#define SPEED_WALK WALK(4, ENTRY(3, 3), ENTRY(6, 3), ENTRY(2, 3), ENTRY(6, 3))

/* Appends a section of one-byte entries 0 to count - 1 after its count, and gives the end. */
static inline size_t rising_section(uint8_t *sheet, size_t at, unsigned count)
{
    sheet[at++] = (uint8_t)count;
    for (unsigned entry = 0; entry < count; entry++)
        sheet[at++] = (uint8_t)entry;
    return at;
}

/* Appends a count of two bytes, and so many sets of the terms 0 to terms - 1, and gives the end. */
static inline size_t rising_sets(uint8_t *sheet, size_t at, unsigned count, unsigned terms)
{
    sheet[at++] = (uint8_t)(count & 0xFF);
    sheet[at++] = (uint8_t)(count >> 8);
    for (unsigned set = 0; set < count; set++)
        at = rising_section(sheet, at, terms);
    return at;
}

/* A sheet of form one with every count as given and all entries rising from 0; gives its length. Its sections begin at
 * 0, 1 + wires, 2 + wires + seen_a, 3 + wires + seen_a + seen_b; its first rule two bytes later. */
static inline size_t rising_sheet(uint8_t *sheet, unsigned wires, unsigned seen_a, unsigned seen_b, unsigned rules,
                                  unsigned terms)
{
    size_t at = rising_section(sheet, 0, wires);
    at = rising_section(sheet, at, seen_a);
    at = rising_section(sheet, at, seen_b);
    return rising_sets(sheet, at, rules, terms);
}

#endif
