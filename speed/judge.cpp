/* speed/judge.cpp: the judge of answers. Tables fit if every rule holds at every combination that is not excused; a
 * walk stands if each step holds, by one of those, the last back to the first claim, and the opposite of the first
 * claim is among the claims.
 * Leans on nothing of the solvers but the reader.
 */
#include "judge.h"

namespace {

unsigned two(const uint8_t *at)
{
    return at[0] | (unsigned)at[1] << 8;
}

unsigned row_shown(uint32_t seen, unsigned combination)
{
    unsigned row = 0, weight = 1;
    for (; seen; seen &= seen - 1, weight *= 2)
        row += (combination >> __builtin_ctz(seen) & 1) * weight;
    return row;
}

/* Whether some rule is broken at a combination that is not excused, with A at x and B at y. */
bool breaks(const job &on, unsigned combination, unsigned x, unsigned y)
{
    unsigned values = combination | x << on.wires | y << (on.wires + 1);
    uint32_t truths = 0;
    for (unsigned variable = 0; variable < on.wires + 2; variable++)
        truths |= 1u << (2 * variable + !(values >> variable & 1));
    for (unsigned excuse = 0; excuse < on.excuse_count; excuse++)
        if (!(on.excuses[excuse] & ~truths))
            return false;
    for (unsigned rule = 0; rule < on.rule_count; rule++)
        if (!(on.rules[rule] & truths))
            return true;
    return false;
}

struct entry {
    unsigned claim, combination;
};

bool step_holds(const job &on, entry from, unsigned to)
{
    unsigned rows_a = 1u << __builtin_popcount(on.seen[0]);
    bool from_a = from.claim / 2 < rows_a;
    if (from_a == (to / 2 < rows_a))
        return false;
    unsigned of_a = from_a ? from.claim : to, of_b = from_a ? to : from.claim;
    if (row_shown(on.seen[0], from.combination) != of_a / 2)
        return false;
    if (row_shown(on.seen[1], from.combination) != of_b / 2 - rows_a)
        return false;
    return breaks(on, from.combination, of_a % 2 ^ !from_a, of_b % 2 ^ from_a);
}

bool walk_stands(const job &on, const uint8_t *walk, unsigned count)
{
    unsigned first = two(walk);
    bool met = false;
    for (unsigned i = 0; i < count; i++) {
        entry from = {two(walk + 4 * i), two(walk + 4 * i + 2)};
        unsigned to = i + 1 < count ? two(walk + 4 * i + 4) : first;
        if (from.combination >> on.wires || !step_holds(on, from, to))
            return false;
        met |= from.claim == (first ^ 1);
    }
    return met;
}

bool tables_fit(const job &on, const uint8_t *a, const uint8_t *b)
{
    for (unsigned combination = 0; combination < 1u << on.wires; combination++) {
        unsigned x = a[row_shown(on.seen[0], combination)], y = b[row_shown(on.seen[1], combination)];
        if (x > 1 || y > 1 || breaks(on, combination, x, y))
            return false;
    }
    return true;
}

}

bool judge_answer(form of, const uint8_t *sheet, size_t sheet_len, const uint8_t *answer, size_t answer_len)
{
    job on;
    if (plain_read_job(of, sheet, sheet_len, on) != 0 || answer_len < 6)
        return false;
    if (two(answer) == 0) {
        unsigned count = two(answer + 4);
        bool whole = two(answer + 2) == 0 && count > 0 && answer_len == 6 + 4 * (size_t)count;
        return whole && walk_stands(on, answer + 6, count);
    }
    size_t rows_a = (size_t)1 << __builtin_popcount(on.seen[0]), rows_b = (size_t)1 << __builtin_popcount(on.seen[1]);
    if (answer_len != 6 + rows_a + rows_b || two(answer) != rows_a)
        return false;
    const uint8_t *b = answer + 2 + rows_a;
    return two(b) == rows_b && two(b + 2 + rows_b) == 0 && tables_fit(on, answer + 2, b + 2);
}
