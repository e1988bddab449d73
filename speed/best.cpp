/* speed/best.cpp: the fastest way known to the outcome of the library's solver, with nothing proved.
 * Wires that both cells see never change along a walk, so that rows that agree on them are a block of their own, and
 * wires that no cell sees matter only for a walk's combinations. For each claim the claims to which its steps lead are
 * a bit set within its block, filled rule by rule. A spread is a few unions of such sets, and it fails at the first
 * claim met with its opposite. Parents and combinations are looked for only where a walk is to be written.
 */
#include <string.h>

#include "plain.h"
#include "solve.h"

namespace {

constexpr unsigned MOST_WIRES = 12, MOST_SEEN = 8, MOST_RULES = 256, MOST_ROWS = 256, MOST_CLAIMS = 1024;
constexpr unsigned MOST_DIGITS = MOST_WIRES + 2, TABLE_WORDS = 1u << (MOST_DIGITS - 6);

/* The variables become digits of a number, lowest first: B's value and the wires that B alone sees, which are a claim
 * of B in its block; A's value and the wires that A alone sees, a claim of A; the wires that both see, the block; and
 * last the wires that none sees. A rule is a mask of terms numbered by these digits: bit 2d is set if it is broken
 * only where digit d is 0, bit 2d + 1 if only where it is 1. B's digit is turned, since where B at a value breaks a
 * rule a step leads to its other value. */
struct board {
    unsigned wires, rule_count, digits[2], all_digits;
    uint32_t seen[2], rules[MOST_RULES];
    uint8_t digit_of[MOST_DIGITS];
    uint64_t steps[2][TABLE_WORDS];
};

struct reader {
    const uint8_t *at, *end;
};

/* What each entry of a set adds to its mask. */
struct masks {
    uint32_t of[256];
};

constexpr masks make_plain()
{
    masks made = {};
    for (unsigned entry = 0; entry < MOST_WIRES; entry++)
        made.of[entry] = 1u << entry;
    return made;
}

constexpr masks PLAIN = make_plain();

/* Reads a count of at most `most` and then strictly rising entries below `limit`; false for any refusal. */
inline bool read_set(reader &from, unsigned most, int limit, const masks &by, uint32_t &set)
{
    if (from.at == from.end || *from.at > most || from.end - from.at <= *from.at)
        return false;
    const uint8_t *at = from.at + 1, *end = at + *from.at;
    uint32_t sum = 0;
    for (int last = -1; at != end; at++) {
        if (*at <= last || *at >= limit)
            return false;
        last = *at;
        sum |= by.of[last];
    }
    from.at = end;
    set = sum;
    return true;
}

void lay_out(board &to)
{
    uint32_t a = to.seen[0], b = to.seen[1], groups[] = {b & ~a, a & ~b, a & b, ((1u << to.wires) - 1) & ~(a | b)};
    unsigned digit = 0;
    for (unsigned group = 0; group < 4; group++) {
        if (group < 2)
            to.digit_of[to.wires + 1 - group] = (uint8_t)digit++;
        for (uint32_t left = groups[group]; left; left &= left - 1)
            to.digit_of[__builtin_ctz(left)] = (uint8_t)digit++;
    }
    to.digits[0] = 1 + (unsigned)__builtin_popcount(groups[1]);
    to.digits[1] = 1 + (unsigned)__builtin_popcount(groups[0]);
    to.all_digits = to.digits[0] + to.digits[1] + (unsigned)__builtin_popcount(groups[2]);
}

/* A rule with a term and its negation is never broken, and is left out. */
bool read_rules(reader from, board &to)
{
    unsigned terms = 2 * to.wires + 4;
    masks by = {};
    for (unsigned term = 0; term < terms; term++)
        by.of[term] = 1u << (2 * to.digit_of[term / 2] + (term / 2 == to.wires + 1 ? 1 - term % 2 : term % 2));
    if (from.end - from.at < 2)
        return false;
    unsigned count = from.at[0] | (unsigned)from.at[1] << 8;
    from.at += 2;
    to.rule_count = 0;
    if (count > MOST_RULES)
        return false;
    for (unsigned rule = 0; rule < count; rule++) {
        uint32_t set;
        if (!read_set(from, terms, (int)terms, by, set))
            return false;
        to.rules[to.rule_count] = set;
        to.rule_count += (set & set >> 1 & 0x55555555) == 0;
    }
    return from.at == from.end;
}

bool read_board(const uint8_t *sheet, size_t length, board &to)
{
    reader from = {sheet, sheet + length};
    uint32_t pins;
    if (!read_set(from, MOST_WIRES, 256, PLAIN, pins))
        return false;
    to.wires = sheet[0];
    for (unsigned cell = 0; cell < 2; cell++)
        if (!read_set(from, MOST_SEEN, (int)to.wires, PLAIN, to.seen[cell]))
            return false;
    lay_out(to);
    return read_rules(from, to);
}

/* Filling a table of steps. A rule's six lowest digits are a pattern in a word, the next three choose among eight words,
 * and the others choose rows of eight words. For a rule each of those is 0, 1 or free, so that it is added once, to one
 * row of a ternary table; at the end the rows for a free digit are added to those for 0 and for 1. */
constexpr unsigned ROW_DIGITS = MOST_DIGITS - 9;

constexpr unsigned power(unsigned base, unsigned exponent)
{
    return exponent == 0 ? 1 : base * power(base, exponent - 1);
}

typedef uint64_t words __attribute__((vector_size(64)));

struct patterns {
    uint64_t in_bytes[64], bytes[64];
    uint64_t eights[64][8];
    uint16_t row[power(4, ROW_DIGITS)];
};

/* Whether no term of the mask forbids the number. */
constexpr bool within(unsigned number, unsigned terms)
{
    for (; terms; terms >>= 2, number >>= 1)
        if (terms >> (1 - number % 2) & 1)
            return false;
    return true;
}

constexpr patterns make_patterns()
{
    patterns made = {};
    for (unsigned terms = 0; terms < 64; terms++)
        for (unsigned number = 0; number < 8; number++)
            if (within(number, terms)) {
                made.in_bytes[terms] |= UINT64_C(0x0101010101010101) << number;
                made.bytes[terms] |= UINT64_C(0xFF) << 8 * number;
                made.eights[terms][number] = ~UINT64_C(0);
            }
    for (unsigned terms = 0; terms < power(4, ROW_DIGITS); terms++)
        for (unsigned digit = 0; digit < ROW_DIGITS; digit++) {
            unsigned pair = terms >> 2 * digit & 3;
            made.row[terms] = (uint16_t)(made.row[terms] + power(3, digit) * (pair == 0 ? 2 : pair - 1));
        }
    return made;
}

constexpr patterns PATTERNS = make_patterns();

inline void add_rule(words *ternary, uint32_t rule)
{
    uint64_t pattern = PATTERNS.in_bytes[rule % 64] & PATTERNS.bytes[rule >> 6 & 63];
    words eight;
    memcpy(&eight, PATTERNS.eights[rule >> 12 & 63], sizeof eight);
    ternary[PATTERNS.row[rule >> 18 & (power(4, ROW_DIGITS) - 1)]] |= eight & pattern;
}

void gather(words *ternary, unsigned digits, uint64_t *table)
{
    if (digits == 0) {
        memcpy(table, ternary, sizeof *ternary);
        return;
    }
    unsigned third = power(3, digits - 1);
    for (unsigned i = 0; i < third; i++) {
        ternary[i] |= ternary[2 * third + i];
        ternary[third + i] |= ternary[2 * third + i];
    }
    gather(ternary, digits - 1, table);
    gather(ternary + third, digits - 1, table + (8u << (digits - 1)));
}

/* Digits that no claim and no block has are dropped from each rule, and count as 0. */
void fill_table(const uint32_t *rules, unsigned count, unsigned digits, uint64_t *table)
{
    words ternary[power(3, ROW_DIGITS)];
    unsigned row_digits = digits < 9 ? 0 : digits - 9;
    uint32_t used = (uint32_t)((UINT64_C(1) << 2 * digits) - 1), unused = 0x55555555 & ~used;
    memset(ternary, 0, power(3, row_digits) * sizeof *ternary);
    for (unsigned rule = 0; rule < count; rule++)
        add_rule(ternary, (rules[rule] & used) | unused);
    gather(ternary, row_digits, table);
}

/* Exchanges the terms of the two claims, and turns the digits of both values. */
uint32_t exchanged(const board &on, uint32_t rule)
{
    unsigned a = 2 * on.digits[0], b = 2 * on.digits[1];
    uint64_t rest = (uint64_t)rule >> (a + b) << (a + b), low = rule & ((UINT64_C(1) << b) - 1);
    uint32_t moved = (uint32_t)(rest | low << a | (rule ^ rest) >> b);
    uint32_t turned = (moved ^ moved >> 1) & (1u | 1u << a);
    return moved ^ (turned | turned << 1);
}

void fill_steps(board &on)
{
    uint32_t rules[MOST_RULES];
    for (unsigned rule = 0; rule < on.rule_count; rule++)
        rules[rule] = exchanged(on, on.rules[rule]);
    fill_table(on.rules, on.rule_count, on.all_digits, on.steps[0]);
    fill_table(rules, on.rule_count, on.all_digits, on.steps[1]);
}

constexpr uint64_t ZEROS = 0x5555555555555555;

/* A set of claims of one cell in a block. */
template <unsigned WORDS> struct claims {
    uint64_t word[WORDS];

    bool empty() const
    {
        uint64_t any = 0;
        for (unsigned i = 0; i < WORDS; i++)
            any |= word[i];
        return any == 0;
    }

    /* Whether the set has a claim and its opposite. */
    bool clash() const
    {
        uint64_t any = 0;
        for (unsigned i = 0; i < WORDS; i++)
            any |= word[i] & word[i] >> 1 & ZEROS;
        return any != 0;
    }
};

/* The steps from one cell's claims in a block: for each claim the set of the other cell's claims to which they lead. */
struct steps {
    const uint64_t *table;
    unsigned digits;
    uint64_t mask;
    size_t first, count;

    /* A word of a claim's set. Sets of 64 claims or fewer share words. */
    template <unsigned WORDS> uint64_t word(size_t from, unsigned i) const
    {
        if (WORDS > 1)
            return table[(first + from) * WORDS + i];
        size_t bit = (first + from) << digits;
        return table[bit / 64] >> bit % 64 & mask;
    }

    uint64_t any_word(size_t from, unsigned i) const
    {
        return digits > 6 ? table[((first + from) << (digits - 6)) + i] : word<1>(from, 0);
    }
};

steps steps_of(const board &on, unsigned cell, size_t block)
{
    unsigned digits = on.digits[1 - cell];
    uint64_t mask = digits < 6 ? (UINT64_C(1) << (1u << digits)) - 1 : ~UINT64_C(0);
    return {on.steps[cell], digits, mask, block << on.digits[cell], (size_t)1 << on.digits[cell]};
}

/* The claims to which some step leads. */
template <unsigned WORDS> claims<WORDS> led_to(const steps &by)
{
    claims<WORDS> sum = {};
    if (WORDS > 1 || by.count << by.digits < 64) {
        for (size_t from = 0; from < by.count; from++)
            for (unsigned i = 0; i < WORDS; i++)
                sum.word[i] |= by.word<WORDS>(from, i);
        return sum;
    }
    for (size_t i = 0; i < by.count << by.digits >> 6; i++)
        sum.word[0] |= by.table[(by.first << by.digits >> 6) + i];
    for (unsigned size = 32; size >= 1u << by.digits; size /= 2)
        sum.word[0] |= sum.word[0] >> size;
    sum.word[0] &= by.mask;
    return sum;
}

/* The claims of the other cell that are reached from `fresh` and were not reached before. */
template <unsigned OTHER, unsigned OWN>
inline claims<OTHER> turn(const claims<OWN> &fresh, const steps &by, claims<OTHER> &reached)
{
    claims<OTHER> found = {};
    for (unsigned i = 0; i < OWN; i++)
        for (uint64_t left = fresh.word[i]; left; left &= left - 1)
            for (unsigned j = 0; j < OTHER; j++)
                found.word[j] |= by.word<OTHER>(64 * i + (unsigned)__builtin_ctzll(left), j);
    for (unsigned j = 0; j < OTHER; j++) {
        found.word[j] &= ~reached.word[j];
        reached.word[j] |= found.word[j];
    }
    return found;
}

/* Spreads from one claim. What is settled is closed under steps, and no spread goes through it again. */
template <unsigned OWN, unsigned OTHER>
bool spread(claims<OWN> fresh, const steps &own, const steps &other, claims<OWN> &settled, claims<OTHER> &settled_other)
{
    claims<OWN> reached = settled;
    claims<OTHER> reached_other = settled_other;
    for (unsigned i = 0; i < OWN; i++)
        reached.word[i] |= fresh.word[i];
    while (!fresh.empty()) {
        claims<OTHER> next = turn<OTHER>(fresh, own, reached_other);
        if (reached_other.clash())
            return false;
        fresh = turn<OWN>(next, other, reached);
        if (reached.clash())
            return false;
    }
    settled = reached;
    settled_other = reached_other;
    return true;
}

constexpr int NONE = -1;

/* Settles the rows of one cell in order. Where no step leads to a row's 1 claim none leads from its 0 claim: it holds 0,
 * and nothing depends on that. Gives NONE, or the claim of the first row whose spreads both fail. */
template <unsigned OWN, unsigned OTHER>
int settle(const steps &own, const steps &other, claims<OWN> &settled, claims<OTHER> &settled_other)
{
    claims<OWN> led = led_to<OWN>(other);
    for (unsigned i = 0; i < OWN; i++) {
        uint64_t open = led.word[i] >> 1 & ZEROS;
        while ((open &= ~(settled.word[i] | settled.word[i] >> 1)) != 0) {
            claims<OWN> zero = {}, one = {};
            zero.word[i] = open & -open;
            one.word[i] = zero.word[i] << 1;
            if (!spread(zero, own, other, settled, settled_other) && !spread(one, own, other, settled, settled_other))
                return (int)(64 * i) + __builtin_ctzll(open);
        }
    }
    return NONE;
}

struct failure {
    size_t block;
    unsigned cell, claim;
};

/* The parts of a cell's row number that come from its block and from its number in the block. */
struct parts {
    uint8_t by_block[MOST_ROWS], within[MOST_ROWS];
};

void fill_parts(uint32_t seen, uint32_t shared, parts &to)
{
    unsigned blocks = 1, rows = 1, weight = 1;
    to.by_block[0] = to.within[0] = 0;
    for (uint32_t left = seen; left; left &= left - 1, weight *= 2) {
        bool both = left & -left & shared;
        uint8_t *part = both ? to.by_block : to.within;
        unsigned &size = both ? blocks : rows;
        for (unsigned i = 0; i < size; i++)
            part[size + i] = (uint8_t)(part[i] + weight);
        size *= 2;
    }
}

struct tables {
    uint8_t rows[2][MOST_ROWS];
};

template <unsigned WORDS> void mark_ones(const claims<WORDS> &of, size_t block, const parts &by, uint8_t *rows)
{
    for (unsigned i = 0; i < WORDS; i++)
        for (uint64_t ones = of.word[i] >> 1 & ZEROS; ones; ones &= ones - 1)
            rows[by.by_block[block] + by.within[32 * i + (unsigned)__builtin_ctzll(ones) / 2]] = 1;
}

template <unsigned A, unsigned B> bool settle_blocks(const board &on, tables &to, failure &failed)
{
    parts by[2];
    for (unsigned cell = 0; cell < 2; cell++)
        fill_parts(on.seen[cell], on.seen[1 - cell], by[cell]);
    for (size_t block = 0; block < (size_t)1 << (on.all_digits - on.digits[0] - on.digits[1]); block++) {
        steps of_a = steps_of(on, 0, block), of_b = steps_of(on, 1, block);
        claims<A> a = {};
        claims<B> b = {};
        int at_a = settle<A, B>(of_a, of_b, a, b), at_b = at_a == NONE ? settle<B, A>(of_b, of_a, b, a) : NONE;
        if (at_a != NONE || at_b != NONE) {
            failed = {block, at_a == NONE, (unsigned)(at_a == NONE ? at_b : at_a)};
            return false;
        }
        mark_ones(a, block, by[0], to.rows[0]);
        mark_ones(b, block, by[1], to.rows[1]);
    }
    return true;
}

/* The wires that only one cell sees are at most 12, so that where one cell's sets take more than two words the other's
 * take one. */
bool settle_all(const board &on, tables &to, failure &failed)
{
    unsigned words_a = on.digits[0] < 6 ? 0 : on.digits[0] - 6, words_b = on.digits[1] < 6 ? 0 : on.digits[1] - 6;
    switch (4 * words_a + words_b) {
    case 0: return settle_blocks<1, 1>(on, to, failed);
    case 1: return settle_blocks<1, 2>(on, to, failed);
    case 2: return settle_blocks<1, 4>(on, to, failed);
    case 3: return settle_blocks<1, 8>(on, to, failed);
    case 4: return settle_blocks<2, 1>(on, to, failed);
    case 5: return settle_blocks<2, 2>(on, to, failed);
    case 8: return settle_blocks<4, 1>(on, to, failed);
    default: return settle_blocks<8, 1>(on, to, failed);
    }
}

/* Finding a walk in a block. Its claims have one row of numbers here, those of A first. */
struct finder {
    const board &on;
    size_t block;
    unsigned claims_a;
    uint16_t from[MOST_CLAIMS], queue[MOST_CLAIMS];
    unsigned count;

    /* Queues the claims that are reached from one claim and were not before. */
    void look(unsigned at)
    {
        unsigned cell = at >= claims_a, own = cell ? at - claims_a : at, other = cell ? 0 : claims_a;
        steps by = steps_of(on, cell, block);
        for (unsigned i = 0; i < (63 + (1u << by.digits)) / 64; i++)
            for (uint64_t left = by.any_word(own, i); left; left &= left - 1) {
                unsigned to = other + 64 * i + (unsigned)__builtin_ctzll(left);
                if (from[to] == UINT16_MAX) {
                    from[to] = (uint16_t)at;
                    queue[count++] = (uint16_t)to;
                }
            }
    }

    void search(unsigned start, unsigned target)
    {
        memset(from, 0xFF, sizeof from);
        from[start] = queue[0] = (uint16_t)start;
        count = 1;
        for (unsigned head = 0; from[target] == UINT16_MAX; head++)
            look(queue[head]);
    }

    /* A combination by which a step leads from one claim to another. The first rule that no digit of the two claims
     * and of the block forbids is broken there; wires that no cell sees are as it wants them. */
    combination by(unsigned at, unsigned to) const
    {
        unsigned a = at < claims_a ? at : to ^ 1, b = (at < claims_a ? to : at ^ 1) - claims_a;
        uint32_t digits = (uint32_t)((block << on.digits[0] | a) << on.digits[1] | b), forbidden = 0, wires = 0;
        unsigned rule = 0;
        for (unsigned digit = 0; digit < on.all_digits; digit++)
            forbidden |= 1u << (2 * digit + !(digits >> digit & 1));
        while (on.rules[rule] & forbidden)
            rule++;
        for (unsigned wire = 0; wire < on.wires; wire++) {
            unsigned digit = on.digit_of[wire];
            wires |= (digit < on.all_digits ? digits >> digit & 1 : on.rules[rule] >> (2 * digit + 1) & 1) << wire;
        }
        return {(uint16_t)wires};
    }

    /* The number of a claim whose row the combination shows. */
    claim number(unsigned of, combination shown_by) const
    {
        unsigned row = of < claims_a ? 0 : 1u << __builtin_popcount(on.seen[0]), weight = 1;
        for (uint32_t seen = on.seen[of < claims_a ? 0 : 1]; seen; seen &= seen - 1, weight *= 2)
            row += (shown_by.number >> __builtin_ctz(seen) & 1) * weight;
        return {(uint16_t)(2 * row + of % 2)};
    }

    /* Half a walk, from `start` to its opposite: the opposites of the parents' chain, which needs no reversal. */
    size_t write_half(unsigned start, uint8_t *answer, size_t at)
    {
        search(start, start ^ 1);
        for (unsigned back = start ^ 1; back != start; back = from[back]) {
            combination step = by(from[back], back);
            at = put_entry(answer, at, number(back ^ 1, step), step);
        }
        return at;
    }
};

size_t write_walk(const board &on, failure failed, uint8_t *answer)
{
    finder find = {on, failed.block, 1u << on.digits[0], {}, {}, 0};
    unsigned start = failed.cell == 0 ? failed.claim : find.claims_a + failed.claim;
    size_t first = put_two(answer, put_two(answer, 0, 0), 0) + 2;
    size_t end = find.write_half(start ^ 1, answer, find.write_half(start, answer, first));
    put_two(answer, first - 2, (unsigned)((end - first) / 4));
    return end;
}

size_t write_tables(const board &on, const tables &from, uint8_t *answer)
{
    size_t at = 0;
    for (unsigned cell = 0; cell < 2; cell++) {
        unsigned count = 1u << __builtin_popcount(on.seen[cell]);
        at = put_two(answer, at, count);
        memcpy(answer + at, from.rows[cell], count);
        at += count;
    }
    return put_two(answer, at, 0);
}

}

/* The plain reader is asked only where a sheet is refused, for the outcome number. */
uint64_t best_solve(const uint8_t *sheet, size_t sheet_len, uint8_t *answer, size_t answer_len)
{
    board on;
    job refused;
    tables to = {};
    failure failed;
    if (!read_board(sheet, sheet_len, on))
        return plain_read_job(form::one, sheet, sheet_len, refused);
    if (answer_len < LONGEST_ANSWER)
        return NO_ROOM;
    fill_steps(on);
    if (settle_all(on, to, failed))
        return succeeded(TABLES, write_tables(on, to, answer));
    return succeeded(WALK, write_walk(on, failed, answer));
}
