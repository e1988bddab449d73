/* speed/sheets.cpp: makes the sheets that make speed times: jobs to read, a job with tables that fit it, and excuses to
 * put behind a job of 12 wires.
 * The random rules come from a fixed seed, so that every run times the same sheets. It leans on nothing.
 */
#include "sheets.h"

#define WIRES 12
#define SEEN 8
#define ROWS 256
#define RULES 256
#define EXCUSES 64
#define COMBINATIONS 4096
#define VARIABLES (WIRES + 2)

/* Where the tables of A and B begin in a sheet of the largest tables. */
static const size_t table_at[2] = {2, 4 + ROWS};

/* The wires that A and B see in the fitted job. */
static const uint8_t seen[2][SEEN] = {{0, 1, 3, 4, 6, 7, 9, 10}, {1, 2, 4, 5, 7, 8, 10, 11}};

static size_t rising_section(uint8_t *sheet, size_t at, unsigned count, unsigned stride)
{
    sheet[at++] = (uint8_t)count;
    for (unsigned entry = 0; entry < count; entry++)
        sheet[at++] = (uint8_t)(entry * stride);
    return at;
}

size_t longest_job(uint8_t *sheet)
{
    size_t at = rising_section(sheet, 0, WIRES, 1);
    at = rising_section(sheet, at, SEEN, 1);
    at = rising_section(sheet, at, SEEN, 1);
    sheet[at++] = RULES & 0xFF;
    sheet[at++] = RULES >> 8;
    for (int rule = 0; rule < RULES; rule++)
        at = rising_section(sheet, at, 2 * VARIABLES, 1);
    return at;
}

size_t ordinary_job(uint8_t *sheet)
{
    size_t at = rising_section(sheet, 0, 8, 3);
    at = rising_section(sheet, at, 4, 1);
    at = rising_section(sheet, at, 4, 2);
    sheet[at++] = 60;
    sheet[at++] = 0;
    for (unsigned rule = 0; rule < 60; rule++)
        at = rising_section(sheet, at, 2 + rule * 7 % 4, 1 + rule % 4);
    return at;
}

/* A is 1 where the first two of its wires are, or the next two; B where the last two are, or the two before. */
size_t largest_tables(uint8_t *sheet)
{
    static const unsigned pairs[2][2] = {{0x03, 0x0C}, {0x30, 0xC0}};
    for (int cell = 0; cell < 2; cell++) {
        unsigned one = pairs[cell][0], other = pairs[cell][1];
        sheet[table_at[cell] - 2] = ROWS & 0xFF;
        sheet[table_at[cell] - 1] = ROWS >> 8;
        for (unsigned row = 0; row < ROWS; row++)
            sheet[table_at[cell] + row] = (row & one) == one || (row & other) == other;
    }
    sheet[table_at[1] + ROWS] = 0;
    sheet[table_at[1] + ROWS + 1] = 0;
    return table_at[1] + ROWS + 2;
}

/* A number below the limit, by splitmix64. */
static unsigned below(unsigned limit)
{
    static uint64_t state = 1;
    uint64_t mixed = state += 0x9E3779B97F4A7C15;
    mixed = (mixed ^ mixed >> 30) * 0xBF58476D1CE4E5B9;
    mixed = (mixed ^ mixed >> 27) * 0x94D049BB133111EB;
    return (unsigned)((mixed ^ mixed >> 31) % limit);
}

/* The values of the wires, of A and of B at a combination, one bit for each. */
static unsigned values_at(unsigned combination, const uint8_t *tables)
{
    unsigned values = combination;
    for (int cell = 0; cell < 2; cell++) {
        unsigned row = 0;
        for (unsigned digit = 0; digit < SEEN; digit++)
            row |= (combination >> seen[cell][digit] & 1) << digit;
        values |= (unsigned)tables[table_at[cell] + row] << (WIRES + cell);
    }
    return values;
}

/* A rule here is the set of its variables and which of them stand negated. */
static int always_holds(unsigned variables, unsigned negated, const uint8_t *tables)
{
    for (unsigned combination = 0; combination < COMBINATIONS; combination++) {
        if (((values_at(combination, tables) ^ negated) & variables) == 0)
            return 0;
    }
    return 1;
}

/* Draws rules until one holds at every combination, and writes it. */
static size_t fitted_rule(uint8_t *sheet, size_t at, const uint8_t *tables)
{
    unsigned variables, negated, terms;
    do {
        terms = 4 + below(5);
        negated = below(1 << VARIABLES);
        variables = 0;
        for (unsigned drawn = 0; drawn < terms; drawn++) {
            unsigned variable = below(VARIABLES);
            while (variables >> variable & 1)
                variable = (variable + 1) % VARIABLES;
            variables |= 1u << variable;
        }
    } while (!always_holds(variables, negated, tables));
    sheet[at++] = (uint8_t)terms;
    for (unsigned variable = 0; variable < VARIABLES; variable++) {
        if (variables >> variable & 1)
            sheet[at++] = (uint8_t)(2 * variable + (negated >> variable & 1));
    }
    return at;
}

size_t fitted_job(uint8_t *sheet, const uint8_t *tables)
{
    size_t at = rising_section(sheet, 0, WIRES, 1);
    for (int cell = 0; cell < 2; cell++) {
        sheet[at++] = SEEN;
        for (unsigned digit = 0; digit < SEEN; digit++)
            sheet[at++] = seen[cell][digit];
    }
    sheet[at++] = RULES & 0xFF;
    sheet[at++] = RULES >> 8;
    for (int rule = 0; rule < RULES; rule++)
        at = fitted_rule(sheet, at, tables);
    return at;
}

static size_t begin_excuses(uint8_t *section)
{
    section[0] = EXCUSES;
    section[1] = 0;
    return 2;
}

size_t longest_excuses(uint8_t *section)
{
    size_t at = begin_excuses(section);
    for (int excuse = 0; excuse < EXCUSES; excuse++)
        at = rising_section(section, at, 2 * WIRES, 1);
    return at;
}

/* Every fifth wire, around the 12, is named; which terms are negated is mixed from the excuse's number. */
size_t mixed_excuses(uint8_t *section, unsigned terms)
{
    size_t at = begin_excuses(section);
    for (unsigned excuse = 0; excuse < EXCUSES; excuse++) {
        unsigned named = 0, negated = excuse * 0x9E3779B9u >> (32 - WIRES);
        for (unsigned term = 0; term < terms; term++)
            named |= 1u << (excuse + 5 * term) % WIRES;
        section[at++] = (uint8_t)terms;
        for (unsigned wire = 0; wire < WIRES; wire++) {
            if (named >> wire & 1)
                section[at++] = (uint8_t)(2 * wire + (negated >> wire & 1));
        }
    }
    return at;
}
