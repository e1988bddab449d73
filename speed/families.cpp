/* speed/families.cpp: makes the families of jobs. Random jobs keep to a planted pair of tables where tables are
 * wanted: each cell's table is a random function of three of its wires, and a random rule that the pair breaks is
 * drawn again. Where a walk is wanted, rules are exchanged for random ones until a walk stands.
 * The late failures are built: many rows whose 0 spread runs long before it meets a claim and its opposite, and whose
 * 1 spread settles little, so that the next row's 0 spread has to run as long again.
 */
#include "families.h"

#include <stddef.h>

#include "solve.h"

namespace {

enum { ANY = -1 };

/* Knuth's 64-bit linear congruential generator; the high half of its state is used. */
struct dice {
    uint64_t state;

    unsigned below(unsigned limit)
    {
        state = state * 6364136223846793005u + 1442695040888963407u;
        return (unsigned)((state >> 32) * limit >> 32);
    }

    /* A random part of `from` with `count` members. */
    uint32_t part(uint32_t from, unsigned count)
    {
        uint32_t chosen = 0;
        while ((unsigned)__builtin_popcount(chosen) < count)
            chosen |= from & 1u << below(32);
        return chosen;
    }
};

/* A job before it is written as a sheet: seen wires and rules are masks. */
struct draft {
    unsigned wires;
    uint32_t seen[2];
    std::vector<uint32_t> rules;
};

uint32_t row_shown(uint32_t seen, uint32_t combination)
{
    uint32_t row = 0;
    unsigned place = 0;
    for (; seen; seen &= seen - 1, place++)
        row |= (combination >> __builtin_ctz(seen) & 1) << place;
    return row;
}

void put_set(std::vector<uint8_t> &sheet, uint32_t set)
{
    sheet.push_back((uint8_t)__builtin_popcount(set));
    for (; set; set &= set - 1)
        sheet.push_back((uint8_t)__builtin_ctz(set));
}

std::vector<uint8_t> sheet_of(const draft &of)
{
    std::vector<uint8_t> sheet;
    put_set(sheet, (1u << of.wires) - 1);
    put_set(sheet, of.seen[0]);
    put_set(sheet, of.seen[1]);
    sheet.push_back((uint8_t)of.rules.size());
    sheet.push_back((uint8_t)(of.rules.size() >> 8));
    for (uint32_t rule : of.rules)
        put_set(sheet, rule);
    return sheet;
}

/* The planted value of each cell at each combination. */
struct planted {
    std::vector<uint8_t> cells[2];
};

planted plant(dice &by, const draft &on)
{
    planted pair;
    for (int cell = 0; cell < 2; cell++) {
        unsigned seen = (unsigned)__builtin_popcount(on.seen[cell]);
        uint32_t of = by.part(on.seen[cell], seen < 3 ? seen : 3);
        unsigned values = by.below(256);
        for (uint32_t a = 0; a < 1u << on.wires; a++)
            pair.cells[cell].push_back(values >> row_shown(of, a) & 1);
    }
    return pair;
}

bool keeps(const draft &on, const planted &pair, uint32_t rule)
{
    for (uint32_t a = 0; a < 1u << on.wires; a++) {
        uint32_t values = a | (uint32_t)pair.cells[0][a] << on.wires | (uint32_t)pair.cells[1][a] << (on.wires + 1);
        bool holds = false;
        for (uint32_t terms = rule; terms && !holds; terms &= terms - 1)
            holds = (values >> __builtin_ctz(terms) / 2 & 1) != (unsigned)__builtin_ctz(terms) % 2;
        if (!holds)
            return false;
    }
    return true;
}

/* One or two cell terms, and from `least` to `most` wire terms. */
uint32_t random_rule(dice &by, unsigned wires, unsigned least, unsigned most)
{
    uint32_t rule = 0, cells = 1 + by.below(3);
    uint32_t variables = by.part((1u << wires) - 1, least + by.below(most - least + 1)) | cells << wires;
    for (; variables; variables &= variables - 1)
        rule |= 1u << (2 * (unsigned)__builtin_ctz(variables) + by.below(2));
    return rule;
}

draft random_job(dice &by, unsigned wires, unsigned seen, unsigned rules, bool walk)
{
    uint32_t all = (1u << wires) - 1;
    draft made = {wires, {by.part(all, seen), by.part(all, seen)}, {}};
    planted pair = plant(by, made);
    while (made.rules.size() < rules) {
        uint32_t rule = random_rule(by, wires, wires / 4, wires * 3 / 4);
        if (keeps(made, pair, rule))
            made.rules.push_back(rule);
    }
    uint8_t answer[LONGEST_ANSWER];
    std::vector<uint8_t> sheet = sheet_of(made);
    while (walk && (best_solve(sheet.data(), sheet.size(), answer, sizeof answer) & 0xFF) != WALK) {
        made.rules[by.below(rules)] = random_rule(by, wires, wires / 4, wires * 3 / 4);
        sheet = sheet_of(made);
    }
    return made;
}

/* The terms that are false where the row shown by `seen` has the digits of `mask` as in `row`. */
uint32_t row_terms(uint32_t seen, uint32_t row, uint32_t mask)
{
    uint32_t terms = 0;
    for (; seen; seen &= seen - 1, row >>= 1, mask >>= 1)
        if (mask & 1)
            terms |= 1u << (2 * (unsigned)__builtin_ctz(seen) + (row & 1));
    return terms;
}

/* The rows of a cell whose digits of `mask` are those of `row`, holding `value`. */
struct rows {
    uint32_t row, mask;
    int value;
};

/* A rule that is broken where A and B both are so. */
void forbid(draft &on, rows a, rows b)
{
    uint32_t rule = row_terms(on.seen[0], a.row, a.mask) | row_terms(on.seen[1], b.row, b.mask);
    if (a.value != ANY)
        rule |= 1u << (2 * on.wires + (unsigned)a.value);
    if (b.value != ANY)
        rule |= 1u << (2 * (on.wires + 1) + (unsigned)b.value);
    on.rules.push_back(rule);
}

void shuffle(dice &by, std::vector<uint32_t> &rules)
{
    for (size_t left = rules.size(); left > 1; left--)
        std::swap(rules[left - 1], rules[by.below((unsigned)left)]);
}

/* Cells that share no wire, 6 each. 0 in a row of A leads to 0 in a row of B and that to 0 in A's next row, up to the
 * last, which can't be 0. So A's rows fail one by one, each at the end of the chain, and all rows hold 1. With `walk`
 * neighbours in the chain are equal, and its ends are not: the first row fails both ways, and the walk is long. */
draft chain(dice &by, bool walk)
{
    const uint32_t all = 0xFFF, every = 63, mixed = by.below(64), last = 63 ^ mixed;
    draft made = {12, {by.part(all, 6), 0}, {}};
    made.seen[1] = all & ~made.seen[0];
    for (int value = 0; value < (walk ? 2 : 1); value++) {
        for (uint32_t row = 0; row < 64; row++)
            forbid(made, {row, every, value}, {row ^ mixed, every, 1 - value});
        for (uint32_t row = 0; row < 63; row++)
            forbid(made, {row + 1, every, 1 - value}, {row ^ mixed, every, value});
        if (walk)
            forbid(made, {0, every, value}, {last, every, value});
        else
            forbid(made, {63, every, ANY}, {last, every, value});
    }
    shuffle(by, made.rules);
    return made;
}

/* A sees 8 wires, B the other 4. A chain of 0 claims runs through B's rows and the last 16 rows of A. 0 in any other
 * row of A leads to 0 in the chain's first row and to 1 in its last, so that two runs along the chain meet halfway; and
 * it leads to 1 in all those rows. 1 there leads nowhere. So 240 rows fail one by one. With `walk` the last rows of
 * both cells are kept out of the chain, and a combination that shows them is always broken. */
draft fan(dice &by, bool walk)
{
    const uint32_t all = 0xFFF, every_a = 255, every_b = 15, fan_digits = 0xF0, last = walk ? 14 : 15;
    draft made = {12, {by.part(all, 8), 0}, {}};
    made.seen[1] = all & ~made.seen[0];
    for (uint32_t digit = 16; digit & fan_digits; digit *= 2) {
        forbid(made, {0, digit, 0}, {0, every_b, 1});
        forbid(made, {0, digit, 0}, {last, every_b, 0});
    }
    for (uint32_t row = 0; row < last; row++) {
        forbid(made, {240 + row, every_a, 1}, {row, every_b, 0});
        forbid(made, {240 + row, every_a, 0}, {row + 1, every_b, 1});
    }
    if (walk)
        forbid(made, {255, every_a, ANY}, {15, every_b, ANY});
    shuffle(by, made.rules);
    return made;
}

}

std::vector<family> families()
{
    std::vector<family> made = {
        {"small: 4 wires, 2 seen each, 6 rules", {}},
        {"medium: 8 wires, 4 seen each, 60 rules", {}},
        {"large, tables: 12 wires, 8 seen each, 256 rules", {}},
        {"large, walk: 12 wires, 8 seen each, 256 rules", {}},
        {"late chain, tables: 12 wires, 6 seen each, 128 rules", {}},
        {"long chain, walk: 12 wires, 6 seen each, 256 rules", {}},
        {"late fan, tables: 12 wires, 8 and 4 seen, 38 rules", {}},
        {"late fan, walk: 12 wires, 8 and 4 seen, 37 rules", {}},
    };
    dice by = {1};
    for (int job = 0; job < 32; job++) {
        made[0].sheets.push_back(sheet_of(random_job(by, 4, 2, 6, job % 2)));
        made[1].sheets.push_back(sheet_of(random_job(by, 8, 4, 60, job % 2)));
    }
    for (int walk = 0; walk < 2; walk++) {
        for (int job = 0; job < 8; job++)
            made[2 + walk].sheets.push_back(sheet_of(random_job(by, 12, 8, 256, walk)));
        made[4 + walk].sheets.push_back(sheet_of(chain(by, walk)));
        made[6 + walk].sheets.push_back(sheet_of(fan(by, walk)));
    }
    return made;
}

std::vector<widening_pair> widenings()
{
    std::vector<widening_pair> made;
    dice by = {2};
    for (int job = 0; job < 8; job++) {
        draft narrow = random_job(by, 12, 6, 256, false), wide = narrow;
        for (uint32_t &seen : wide.seen)
            seen |= by.part(0xFFF & ~seen, 2);
        for (uint32_t &rule : wide.rules)
            rule |= 1u << by.below(28);
        made.push_back({sheet_of(narrow), sheet_of(wide)});
    }
    return made;
}
