/* speed/plain.cpp: the library as a C++ programmer would write it, with nothing proved.
 * Why: make speed times the library against it, and both do the same work the same way.
 *     reader    left to right, sets as masks; the rules go to an array that is a local of each call
 *     checker   every rule at every combination: the rows it shows, the mask of true terms, each excuse's mask against
 *               it and, where none holds, each rule's
 *     solver    the faults of each combination are filled rule by rule and cleared excuse by excuse, the rows that it
 *               shows are filled wire by wire; then, for each row that is not settled, a breadth-first spread from its
 *               0 claim and, where that fails, from its 1 claim. Each reached claim scans the combinations that show
 *               its row, by the parts of the wires that its cell does not see; no spread stops early
 *     widener   the tables are checked, each rule is looked for among P's and each excuse among Q's, each row is copied
 *               from the row it widens
 *     writer    the description is judged and its sheet measured, then each mask is written from its lowest bit up
 *     mover     the sheet is read in its form, then copied, with an excuse count of 0 behind it or without it
 */
#include "plain.h"

#include <string.h>

#include <algorithm>
#include <bit>
#include <span>

#include "solve.h"

namespace {

constexpr unsigned MOST_WIRES = 12, MOST_SEEN = 8, MOST_RULES = 256, MOST_EXCUSES = 64;
constexpr unsigned COMBINATIONS = 4096, ROWS = 512, CLAIMS = 1024, UNSETTLED = 2;

enum { ACCEPTED, ENDS, TOO_MANY, NOT_RISING, TOO_HIGH, LEFT_OVER };
enum { WRONG_LENGTH = 7, OTHER_KIND = 8, NOT_A_BIT = 9, BREAKS_RULE = 10, ASKS_MORE = 14, EXCUSES_LOST = 16 };

inline uint64_t refusal(uint64_t code, uint64_t sheet, size_t place)
{
    return code | sheet << 8 | (uint64_t)place << 16;
}

inline uint64_t refused_job(uint64_t code, size_t place)
{
    return refusal(code, 1, place);
}

inline uint64_t refused_answer(uint64_t code, size_t place)
{
    return refusal(code, 2, place);
}

/* ---- the reader */

struct reader {
    const uint8_t *sheet;
    size_t length, place;
};

/* Reads count entries below limit, strictly rising, as a mask. */
inline uint64_t read_entries(reader &from, unsigned count, unsigned limit, uint32_t &set)
{
    uint32_t entries = 0;
    int last = -1;
    size_t place = from.place;
    for (unsigned i = 0; i < count; i++, place++) {
        if (place >= from.length)
            return refused_job(ENDS, from.length);
        unsigned entry = from.sheet[place];
        if (entry >= limit)
            return refused_job(TOO_HIGH, place);
        if ((int)entry <= last)
            return refused_job(NOT_RISING, place);
        last = (int)entry;
        entries |= UINT32_C(1) << entry;
    }
    from.place = place;
    set = entries;
    return ACCEPTED;
}

/* Reads a count of at most `most` and then its entries. */
inline uint64_t read_set(reader &from, unsigned most, unsigned limit, uint32_t &set)
{
    if (from.place >= from.length)
        return refused_job(ENDS, from.length);
    unsigned count = from.sheet[from.place];
    if (count > most)
        return refused_job(TOO_MANY, from.place);
    from.place++;
    return read_entries(from, count, limit, set);
}

inline uint64_t read_pins(reader &from, job &job)
{
    if (from.length == 0)
        return refused_job(ENDS, 0);
    unsigned wires = from.sheet[0];
    if (wires > MOST_WIRES)
        return refused_job(TOO_MANY, 0);
    for (unsigned wire = 0; wire < wires; wire++) {
        size_t place = wire + 1;
        if (place >= from.length)
            return refused_job(ENDS, from.length);
        job.pins[wire] = from.sheet[place];
        if (wire > 0 && job.pins[wire] <= job.pins[wire - 1])
            return refused_job(NOT_RISING, place);
    }
    job.wires = wires;
    from.place = wires + 1;
    return ACCEPTED;
}

/* Reads a count of at most `most` and then as many sets of terms, the rules or the excuses. */
inline uint64_t read_sets(reader &from, unsigned most, unsigned terms, uint32_t *sets, unsigned &read)
{
    if (from.length - from.place < 2)
        return refused_job(ENDS, from.length);
    unsigned count = from.sheet[from.place] | (unsigned)from.sheet[from.place + 1] << 8;
    if (count > most)
        return refused_job(TOO_MANY, from.place);
    from.place += 2;
    for (unsigned set = 0; set < count; set++) {
        uint64_t outcome = read_set(from, terms, terms, sets[set]);
        if (outcome != ACCEPTED)
            return outcome;
    }
    read = count;
    return ACCEPTED;
}

template <form of> inline uint64_t read_job(const uint8_t *sheet, size_t length, job &job)
{
    reader from = {sheet, length, 0};
    uint64_t outcome = read_pins(from, job);
    for (int cell = 0; cell < 2 && outcome == ACCEPTED; cell++)
        outcome = read_set(from, MOST_SEEN, job.wires, job.seen[cell]);
    if (outcome == ACCEPTED)
        outcome = read_sets(from, MOST_RULES, 2 * job.wires + 4, job.rules, job.rule_count);
    job.excuse_count = 0;
    job.excuses_at = from.place;
    if (of == form::two && outcome == ACCEPTED)
        outcome = read_sets(from, MOST_EXCUSES, 2 * job.wires, job.excuses, job.excuse_count);
    if (outcome == ACCEPTED && from.place < length)
        outcome = refused_job(LEFT_OVER, from.place);
    return outcome;
}

/* ---- the checker */

using bytes = std::span<const uint8_t>;
using masks = std::span<const uint32_t>;

/* Reads a section: a count, which must be `rows`, and as many bytes, each 0 or 1. Gives 0, or a refusal. */
uint64_t read_section(bytes sheet, size_t &place, unsigned rows, bytes &table)
{
    if (sheet.size() - place < 2)
        return refused_answer(WRONG_LENGTH, sheet.size());
    unsigned count = sheet[place] | sheet[place + 1] << 8;
    if (count != rows)
        return refused_answer(OTHER_KIND, place);
    place += 2;
    table = sheet.subspan(place, std::min<size_t>(rows, sheet.size() - place));
    auto wrong = std::find_if(table.begin(), table.end(), [](uint8_t value) { return value > 1; });
    place += static_cast<size_t>(wrong - table.begin());
    if (wrong != table.end())
        return refused_answer(NOT_A_BIT, place);
    return table.size() < rows ? refused_answer(WRONG_LENGTH, sheet.size()) : 0;
}

uint32_t row_shown(uint32_t seen, uint32_t combination)
{
    uint32_t row = 0;
    for (unsigned digit = 0; seen != 0; digit++, seen &= seen - 1)
        row |= (combination >> std::countr_zero(seen) & 1) << digit;
    return row;
}

uint32_t true_terms(unsigned wires, uint32_t combination, uint32_t a, uint32_t b)
{
    uint32_t values = combination | a << wires | b << (wires + 1), terms = 0;
    for (unsigned variable = 0; variable < wires + 2; variable++)
        terms |= (values >> variable & 1 ? 1u : 2u) << 2 * variable;
    return terms;
}

bool excused(masks excuses, uint32_t terms)
{
    return std::any_of(excuses.begin(), excuses.end(), [=](uint32_t excuse) { return (excuse & ~terms) == 0; });
}

bool breaks(masks rules, uint32_t terms)
{
    return std::any_of(rules.begin(), rules.end(), [=](uint32_t rule) { return (rule & terms) == 0; });
}

uint64_t test_tables(const job &job, bytes table_a, bytes table_b)
{
    masks rules(job.rules, job.rule_count), excuses(job.excuses, job.excuse_count);
    for (uint32_t combination = 0; combination < 1u << job.wires; combination++) {
        uint32_t a = table_a[row_shown(job.seen[0], combination)];
        uint32_t b = table_b[row_shown(job.seen[1], combination)];
        uint32_t terms = true_terms(job.wires, combination, a, b);
        if (!excused(excuses, terms) && breaks(rules, terms))
            return refused_answer(BREAKS_RULE, combination);
    }
    return TABLES;
}

/* Reads tables and tests them. A walk is refused with 8. */
uint64_t check(const job &on, bytes sheet, bytes *tables)
{
    bytes walk;
    size_t place = 0;
    uint64_t refused = 0;
    for (int cell = 0; cell < 2 && refused == 0; cell++)
        refused = read_section(sheet, place, 1u << std::popcount(on.seen[cell]), tables[cell]);
    if (refused == 0)
        refused = read_section(sheet, place, 0, walk);
    if (refused == 0 && place < sheet.size())
        refused = refused_answer(WRONG_LENGTH, place);
    return refused != 0 ? refused : test_tables(on, tables[0], tables[1]);
}

/* ---- the solver */

/* For each combination the rows that it shows, and four bits: 2x + y is set if A at x and B at y break a rule. */
struct board {
    unsigned rows_a, rows_b, combinations;
    uint32_t seen[2];
    uint8_t row_a[COMBINATIONS], row_b[COMBINATIONS], faults[COMBINATIONS];
};

/* What a spread has reached, in its order, and the claim and the combination by which each was reached. */
struct spread {
    unsigned count;
    uint8_t reached[CLAIMS];
    claim queue[CLAIMS], from[CLAIMS];
    combination by[CLAIMS];
};

/* The digits 0, 2, 4, .. of x, close together. */
uint32_t evens(uint32_t x)
{
    x &= 0x55555555;
    x = (x | x >> 1) & 0x33333333;
    x = (x | x >> 2) & 0x0f0f0f0f;
    x = (x | x >> 4) & 0x00ff00ff;
    return (x | x >> 8) & 0x0000ffff;
}

/* A set of variables with cell B lowest, then cell A, then the wires: the digits of a place in the table. */
uint32_t arranged(unsigned wires, uint32_t set)
{
    return (set & ((1u << wires) - 1)) << 2 | (set >> wires & 1) << 1 | (set >> (wires + 1) & 1);
}

/* The places below 64 whose digits of `fixed` are those of `up`. */
uint64_t pattern_of(uint32_t fixed, uint32_t up)
{
    uint64_t pattern = 1;
    for (uint32_t digit = 1; digit < 64; digit *= 2)
        if (!(fixed & digit))
            pattern |= pattern << digit;
    return pattern << up;
}

/* Changes the words of a cube: the places whose digits of `down` are 0 and of `up` are 1. */
template <typename change> void change_cube(unsigned wires, uint32_t down, uint32_t up, uint64_t *table, change by)
{
    uint32_t fixed = down | up;
    if (down & up)
        return;
    uint64_t pattern = pattern_of(fixed % 64, up % 64);
    uint32_t last_word = ((1u << wires) - 1) / 16, free = last_word & ~(fixed / 64);
    for (uint32_t part = free;; part = (part - 1) & free) {
        by(table[up / 64 + part], pattern);
        if (part == 0)
            return;
    }
}

/* Sets the places where the rule is broken. */
void fill_rule(unsigned wires, uint32_t rule, uint64_t *table)
{
    uint32_t down = arranged(wires, evens(rule)), up = arranged(wires, evens(rule >> 1));
    change_cube(wires, down, up, table, [](uint64_t &word, uint64_t pattern) { word |= pattern; });
}

/* Clears the places of the combinations that the excuse excuses. */
void clear_excuse(unsigned wires, uint32_t excuse, uint64_t *table)
{
    uint32_t up = arranged(wires, evens(excuse)), down = arranged(wires, evens(excuse >> 1));
    change_cube(wires, down, up, table, [](uint64_t &word, uint64_t pattern) { word &= ~pattern; });
}

void fill_faults(const job &from, board &to)
{
    uint64_t table[COMBINATIONS / 16];
    memset(table, 0, (to.combinations + 15) / 16 * sizeof *table);
    for (unsigned rule = 0; rule < from.rule_count; rule++)
        fill_rule(from.wires, from.rules[rule], table);
    for (unsigned excuse = 0; excuse < from.excuse_count; excuse++)
        clear_excuse(from.wires, from.excuses[excuse], table);
    for (unsigned a = 0; a < to.combinations; a++)
        to.faults[a] = table[a / 16] >> a % 16 * 4 & 15;
}

/* The row that each combination shows to a cell: each wire doubles what is there, and a seen one adds its weight. */
void fill_rows(unsigned wires, uint32_t seen, uint8_t *rows)
{
    unsigned weight = 1;
    rows[0] = 0;
    for (unsigned wire = 0; wire < wires; wire++) {
        unsigned size = 1u << wire, step = seen >> wire & 1 ? weight : 0;
        for (unsigned a = 0; a < size; a++)
            rows[size + a] = (uint8_t)(rows[a] + step);
        weight <<= seen >> wire & 1;
    }
}

/* The combination that shows a row, with every other wire at 0. */
uint32_t row_placed(uint32_t seen, uint32_t row)
{
    uint32_t combination = 0;
    for (; seen != 0; row >>= 1, seen &= seen - 1)
        combination |= (row & 1) << std::countr_zero(seen);
    return combination;
}

inline void offer(spread &of, claim child, claim parent, combination by)
{
    if (of.reached[child.number])
        return;
    of.reached[child.number] = 1;
    of.queue[of.count++] = child;
    of.from[child.number] = parent;
    of.by[child.number] = by;
}

/* Looks at the combinations that show the claim's row, from the lowest up: its steps lead to claims of the row shown to
 * the other cell. The next combination has the next part of the wires that the claim's cell does not see. */
void look(const board &on, claim at, spread &to)
{
    unsigned row = at.number / 2, value = at.number % 2;
    bool of_a = row < on.rows_a;
    uint32_t seen = on.seen[of_a ? 0 : 1], unseen = on.combinations - 1 - seen;
    const uint8_t *other = of_a ? on.row_b : on.row_a;
    unsigned first = of_a ? on.rows_a : 0;
    unsigned zero = of_a ? 2 * value + 1 : 2 + value, one = of_a ? 2 * value : value;
    uint32_t lowest = row_placed(seen, of_a ? row : row - on.rows_a), part = 0;
    do {
        uint32_t a = lowest + part;
        unsigned child = 2 * (first + other[a]), faults = on.faults[a];
        unsigned fresh = (1u << zero & (to.reached[child] - 1u)) | (1u << one & (to.reached[child + 1] - 1u));
        if (faults & fresh) {
            if (faults >> zero & 1)
                offer(to, {(uint16_t)child}, at, {(uint16_t)a});
            if (faults >> one & 1)
                offer(to, {(uint16_t)(child + 1)}, at, {(uint16_t)a});
        }
        part = (part - unseen) & unseen;
    } while (part != 0);
}

void spread_from(const board &on, claim start, spread &to)
{
    memset(to.reached, 0, 2 * (on.rows_a + on.rows_b));
    to.reached[start.number] = 1;
    to.queue[0] = start;
    to.count = 1;
    for (unsigned head = 0; head < to.count; head++)
        look(on, to.queue[head], to);
}

/* Follows the parents from the opposite of `start` back to it. The opposites of those claims are a chain of steps
 * forward, by the same combinations. */
size_t write_back(const spread &from, claim start, uint8_t *walk, size_t at)
{
    for (claim back = opposite(start); back.number != start.number; back = from.from[back.number])
        at = put_entry(walk, at, opposite(back), from.by[back.number]);
    return at;
}

/* A good spread settles the rows that it reached, and gives 0; else half of a walk is written from `at` on. */
size_t attempt(const board &on, claim start, spread &by, uint8_t *state, uint8_t *walk, size_t at)
{
    spread_from(on, start, by);
    if (by.reached[opposite(start).number])
        return write_back(by, start, walk, at);
    for (unsigned row = 0; row < on.rows_a + on.rows_b; row++)
        state[row] = by.reached[2 * row] ? 0 : by.reached[2 * row + 1] ? 1 : state[row];
    return 0;
}

/* Gives 0 where the state is the first pair, or the length of the walk. */
size_t search(const board &on, uint8_t *state, uint8_t *walk)
{
    spread by;
    for (unsigned row = 0; row < on.rows_a + on.rows_b; row++) {
        if (state[row] != UNSETTLED)
            continue;
        claim zero = {(uint16_t)(2 * row)};
        size_t half = attempt(on, zero, by, state, walk, 0);
        size_t end = half == 0 ? 0 : attempt(on, opposite(zero), by, state, walk, half);
        if (end != 0)
            return end;
    }
    return 0;
}

size_t write_table(uint8_t *answer, size_t at, const uint8_t *rows, unsigned count)
{
    at = put_two(answer, at, count);
    memcpy(answer + at, rows, count);
    return at + count;
}

size_t write_walk(uint8_t *answer, const uint8_t *walk, size_t length)
{
    size_t at = put_two(answer, put_two(answer, 0, 0), 0);
    at = put_two(answer, at, (unsigned)(length / 4));
    memcpy(answer + at, walk, length);
    return at + length;
}

uint64_t solve(const board &on, uint8_t *answer)
{
    uint8_t state[ROWS], walk[LONGEST_ANSWER];
    memset(state, UNSETTLED, sizeof state);
    size_t end = search(on, state, walk);
    if (end != 0)
        return succeeded(WALK, write_walk(answer, walk, end));
    size_t at = write_table(answer, 0, state, on.rows_a);
    at = write_table(answer, at, state + on.rows_a, on.rows_b);
    return succeeded(TABLES, put_two(answer, at, 0));
}

/* ---- the widener */

/* Whether each of the wide sets has all terms of some narrow one. */
bool all_within(masks narrow, masks wide)
{
    return std::all_of(wide.begin(), wide.end(), [=](uint32_t outer) {
        return std::any_of(narrow.begin(), narrow.end(), [=](uint32_t inner) { return (inner & ~outer) == 0; });
    });
}

/* Whether the pins are equal, each cell sees no fewer wires, each rule of Q has all terms of some rule of P, and each
 * excuse of P all terms of some excuse of Q. */
bool asks_no_more(const job &p, const job &q)
{
    if (p.wires != q.wires || memcmp(p.pins, q.pins, p.wires) || p.seen[0] & ~q.seen[0] || p.seen[1] & ~q.seen[1])
        return false;
    return all_within(masks(p.rules, p.rule_count), masks(q.rules, q.rule_count)) &&
           all_within(masks(q.excuses, q.excuse_count), masks(p.excuses, p.excuse_count));
}

size_t write_wide(uint8_t *out, size_t at, bytes narrow, uint32_t seen, uint32_t wide)
{
    unsigned rows = 1u << std::popcount(wide);
    at = put_two(out, at, rows);
    for (uint32_t row = 0; row < rows; row++)
        out[at + row] = narrow[row_shown(seen, row_placed(wide, row))];
    return at + rows;
}

/* ---- the writer */

/* The sections of a description, as refusals number them. */
enum { PINS = 1, SEEN_BY_A, SEEN_BY_B, RULES };

uint64_t judge_pins(bytes pins)
{
    if (pins.size() > MOST_WIRES)
        return refusal(TOO_MANY, PINS, 0);
    for (size_t wire = 1; wire < pins.size(); wire++)
        if (pins[wire] <= pins[wire - 1])
            return refusal(NOT_RISING, PINS, wire);
    return ACCEPTED;
}

/* A position too high is named by the number of positions below it, which are all right. */
uint64_t judge_seen(uint32_t seen, size_t wires, uint64_t section, size_t &length)
{
    unsigned count = (unsigned)__builtin_popcount(seen);
    uint32_t right = seen & ((1u << wires) - 1);
    length += 1 + count;
    if (count > MOST_SEEN)
        return refusal(TOO_MANY, section, 0);
    if (right != seen)
        return refusal(TOO_HIGH, section, (size_t)__builtin_popcount(right));
    return ACCEPTED;
}

uint64_t judge_rules(masks rules, size_t wires, size_t &length)
{
    unsigned terms = 2 * (unsigned)wires + 4;
    if (rules.size() > MOST_RULES)
        return refusal(TOO_MANY, RULES, 0);
    for (size_t rule = 0; rule < rules.size(); rule++) {
        unsigned count = (unsigned)__builtin_popcount(rules[rule]);
        if (rules[rule] >> terms != 0)
            return refusal(count > terms ? TOO_MANY : TOO_HIGH, RULES, rule);
        length += 1 + count;
    }
    length += 2;
    return ACCEPTED;
}

/* The count is known once the entries are written. */
inline size_t write_set(uint8_t *sheet, size_t at, uint32_t set)
{
    size_t count_at = at++;
    for (; set != 0; set &= set - 1)
        sheet[at++] = (uint8_t)__builtin_ctz(set);
    sheet[count_at] = (uint8_t)(at - count_at - 1);
    return at;
}

size_t write_job(uint8_t *sheet, bytes pins, uint32_t sees_a, uint32_t sees_b, masks rules)
{
    sheet[0] = (uint8_t)pins.size();
    std::copy(pins.begin(), pins.end(), sheet + 1);
    size_t at = write_set(sheet, 1 + pins.size(), sees_a);
    at = put_two(sheet, write_set(sheet, at, sees_b), (unsigned)rules.size());
    for (uint32_t rule : rules)
        at = write_set(sheet, at, rule);
    return at;
}

/* ---- the calls, by the form of their job sheets */

template <form of> uint64_t check_sheet(bytes sheet, bytes answer)
{
    job read;
    bytes tables[2];
    uint64_t refused = read_job<of>(sheet.data(), sheet.size(), read);
    return refused != 0 ? refused : check(read, answer, tables);
}

template <form of> uint64_t solve_sheet(bytes sheet, uint8_t *answer, size_t answer_len)
{
    job read;
    board filled;
    uint64_t outcome = read_job<of>(sheet.data(), sheet.size(), read);
    if (outcome != 0)
        return outcome;
    if (answer_len < LONGEST_ANSWER)
        return NO_ROOM;
    std::copy(read.seen, read.seen + 2, filled.seen);
    filled.rows_a = 1u << __builtin_popcount(read.seen[0]);
    filled.rows_b = 1u << __builtin_popcount(read.seen[1]);
    filled.combinations = 1u << read.wires;
    fill_faults(read, filled);
    fill_rows(read.wires, read.seen[0], filled.row_a);
    fill_rows(read.wires, read.seen[1], filled.row_b);
    return solve(filled, answer);
}

template <form of> uint64_t widen_sheet(bytes p, bytes q, bytes answer, uint8_t *out, size_t out_len)
{
    job narrow, wide;
    bytes tables[2];
    uint64_t outcome = read_job<of>(p.data(), p.size(), narrow);
    if (outcome != 0)
        return outcome;
    outcome = read_job<of>(q.data(), q.size(), wide);
    if (outcome != 0)
        return outcome + (2 << 8);
    outcome = check(narrow, answer, tables);
    if (outcome != TABLES)
        return outcome;
    if (!asks_no_more(narrow, wide))
        return refusal(ASKS_MORE, 3, 0);
    if (out_len < LONGEST_ANSWER)
        return NO_ROOM;
    size_t at = 0;
    for (int cell = 0; cell < 2; cell++)
        at = write_wide(out, at, tables[cell], narrow.seen[cell], wide.seen[cell]);
    return succeeded(TABLES, put_two(out, at, 0));
}

}

uint64_t plain_read_job(form of, const uint8_t *sheet, size_t sheet_len, job &read)
{
    return of == form::one ? read_job<form::one>(sheet, sheet_len, read) : read_job<form::two>(sheet, sheet_len, read);
}

uint64_t plain_read(const uint8_t *sheet, size_t sheet_len)
{
    job read;
    return read_job<form::one>(sheet, sheet_len, read);
}

uint64_t plain_read_two(const uint8_t *sheet, size_t sheet_len)
{
    job read;
    return read_job<form::two>(sheet, sheet_len, read);
}

uint64_t plain_check(const uint8_t *sheet, size_t sheet_len, const uint8_t *answer, size_t answer_len)
{
    return check_sheet<form::one>({sheet, sheet_len}, {answer, answer_len});
}

uint64_t plain_check_two(const uint8_t *sheet, size_t sheet_len, const uint8_t *answer, size_t answer_len)
{
    return check_sheet<form::two>({sheet, sheet_len}, {answer, answer_len});
}

uint64_t plain_solve(const uint8_t *sheet, size_t sheet_len, uint8_t *answer, size_t answer_len)
{
    return solve_sheet<form::one>({sheet, sheet_len}, answer, answer_len);
}

uint64_t plain_solve_two(const uint8_t *sheet, size_t sheet_len, uint8_t *answer, size_t answer_len)
{
    return solve_sheet<form::two>({sheet, sheet_len}, answer, answer_len);
}

uint64_t plain_widen(const uint8_t *p, size_t p_len, const uint8_t *q, size_t q_len, const uint8_t *answer,
                     size_t answer_len, uint8_t *out, size_t out_len)
{
    return widen_sheet<form::one>({p, p_len}, {q, q_len}, {answer, answer_len}, out, out_len);
}

uint64_t plain_widen_two(const uint8_t *p, size_t p_len, const uint8_t *q, size_t q_len, const uint8_t *answer,
                         size_t answer_len, uint8_t *out, size_t out_len)
{
    return widen_sheet<form::two>({p, p_len}, {q, q_len}, {answer, answer_len}, out, out_len);
}

uint64_t plain_write(const uint8_t *pins, size_t pins_len, uint32_t sees_a, uint32_t sees_b, const uint32_t *rules,
                     size_t rules_len, uint8_t *sheet, size_t sheet_len)
{
    size_t length = 1 + pins_len;
    uint64_t outcome = judge_pins(bytes(pins, pins_len));
    if (outcome == ACCEPTED)
        outcome = judge_seen(sees_a, pins_len, SEEN_BY_A, length);
    if (outcome == ACCEPTED)
        outcome = judge_seen(sees_b, pins_len, SEEN_BY_B, length);
    if (outcome == ACCEPTED)
        outcome = judge_rules(masks(rules, rules_len), pins_len, length);
    if (outcome != ACCEPTED)
        return outcome;
    if (sheet_len < length)
        return NO_ROOM;
    return succeeded(ACCEPTED, write_job(sheet, bytes(pins, pins_len), sees_a, sees_b, masks(rules, rules_len)));
}

uint64_t plain_to_two(const uint8_t *sheet, size_t sheet_len, uint8_t *moved, size_t moved_len)
{
    job read;
    uint64_t refused = read_job<form::one>(sheet, sheet_len, read);
    if (refused != 0)
        return refused;
    if (moved_len < sheet_len + 2)
        return NO_ROOM;
    std::copy_n(sheet, sheet_len, moved);
    return succeeded(ACCEPTED, put_two(moved, sheet_len, 0));
}

uint64_t plain_to_one(const uint8_t *sheet, size_t sheet_len, uint8_t *moved, size_t moved_len)
{
    job read;
    uint64_t refused = read_job<form::two>(sheet, sheet_len, read);
    if (refused != 0)
        return refused;
    if (read.excuse_count != 0)
        return refused_job(EXCUSES_LOST, read.excuses_at);
    if (moved_len < read.excuses_at)
        return NO_ROOM;
    std::copy_n(sheet, read.excuses_at, moved);
    return succeeded(ACCEPTED, read.excuses_at);
}
