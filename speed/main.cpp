/* speed/main.cpp: times the library, the same work in plain C++, and for the solver C++ at its best, in one run.
 * They take turns, round by round, and each figure is the median of its rounds, for one call. A ratio is the library's
 * time over the other's. A time counts only where all give the same outcome and right answers, so that comes first.
 */
#include <inttypes.h>
#include <stdio.h>
#include <string.h>

#include "families.h"
#include "judge.h"
#include "ormsvelg.h"
#include "plain.h"
#include "sheets.h"
#include "solve.h"
#include "timing.h"

namespace {

constexpr int SIDES = 3, MOST_ROUNDS = 51, LEAST_ROUNDS = 5;
constexpr double ROUND_NANOSECONDS = 3e6, ROW_NANOSECONDS = 2e9;

const char *const names[SIDES] = {"library", "plain", "best"};

using sheet = std::vector<uint8_t>;

/* What a call is lent, and the code that it must give; to the writer, what the job describes and room for its sheet; to
 * the mover, the job in the other form, which it must write, and room for it. */
struct lent {
    sheet job, wide, answer;
    uint32_t code;
    ::job described = {};
    size_t room = 0;
    sheet moved = {};
};

typedef uint64_t call(const lent &by, uint8_t *out);

template <auto &read> uint64_t reads(const lent &by, uint8_t *)
{
    return read(by.job.data(), by.job.size());
}

template <auto &check> uint64_t checks(const lent &by, uint8_t *)
{
    return check(by.job.data(), by.job.size(), by.answer.data(), by.answer.size());
}

template <auto &solve> uint64_t solves(const lent &by, uint8_t *out)
{
    return solve(by.job.data(), by.job.size(), out, LONGEST_ANSWER);
}

template <auto &widen> uint64_t widens(const lent &by, uint8_t *out)
{
    return widen(by.job.data(), by.job.size(), by.wide.data(), by.wide.size(), by.answer.data(), by.answer.size(), out,
                 LONGEST_ANSWER);
}

template <auto &write> uint64_t writes(const lent &by, uint8_t *out)
{
    const ::job &of = by.described;
    return write(of.pins, of.wires, of.seen[0], of.seen[1], of.rules, of.rule_count, out, by.room);
}

template <auto &move> uint64_t moves(const lent &by, uint8_t *out)
{
    return move(by.job.data(), by.job.size(), out, by.room);
}

/* Whether what was written is an answer for the last job lent. */
template <form of> bool answers(const lent &by, const uint8_t *out, size_t written)
{
    const sheet &job = by.wide.empty() ? by.job : by.wide;
    return judge_answer(of, job.data(), job.size(), out, written);
}

/* Whether what was written is this sheet of those lent: the job, or the moved one. */
template <sheet lent::*wanted> bool is(const lent &by, const uint8_t *out, size_t written)
{
    return written == (by.*wanted).size() && !memcmp(out, (by.*wanted).data(), written);
}

/* The same work on each side; a side that has nothing of its own is null. And the judge of what is written, if anything. */
struct work {
    const char *name;
    call *sides[SIDES];
    bool (*right)(const lent &by, const uint8_t *out, size_t written);
};

const work reading = {"read", {reads<ormsvelg_read>, reads<plain_read>, nullptr}, nullptr};
const work checking = {"check", {checks<ormsvelg_check>, checks<plain_check>, nullptr}, nullptr};
const work solving = {"solve", {solves<ormsvelg_solve>, solves<plain_solve>, solves<best_solve>}, answers<form::one>};
const work widening = {"widen", {widens<ormsvelg_widen>, widens<plain_widen>, nullptr}, answers<form::one>};
const work writing = {"write", {writes<ormsvelg_write>, writes<plain_write>, nullptr}, is<&lent::job>};
const work moving_to_two = {"move", {moves<ormsvelg_to_two>, moves<plain_to_two>, nullptr}, is<&lent::moved>};

/* The same with job sheets of form two. */
const work reading_two = {"read", {reads<ormsvelg_read_two>, reads<plain_read_two>, nullptr}, nullptr};
const work checking_two = {"check", {checks<ormsvelg_check_two>, checks<plain_check_two>, nullptr}, nullptr};
const work solving_two = {"solve", {solves<ormsvelg_solve_two>, solves<plain_solve_two>, nullptr}, answers<form::two>};
const work widening_two = {"widen", {widens<ormsvelg_widen_two>, widens<plain_widen_two>, nullptr}, answers<form::two>};
const work moving_to_one = {"move", {moves<ormsvelg_to_one>, moves<plain_to_one>, nullptr}, is<&lent::moved>};

/* A line of the table: what is timed, and what is only tried, for the same outcome. */
struct line {
    const work &of;
    std::string name;
    std::vector<lent> timed, tried;
};

volatile uint64_t sink;

/* Whether an outcome is the library's: to the last byte, but for the walks, of which several may stand. */
bool same_outcome(uint64_t outcome, const uint8_t *out, uint64_t library, const uint8_t *library_out)
{
    if (outcome % 256 == WALK)
        return library % 256 == WALK;
    return outcome == library && !memcmp(out, library_out, outcome >> 40);
}

bool right(const work &of, const lent &by, uint64_t outcome, const uint8_t *out)
{
    return outcome >> 40 == 0 || (of.right && of.right(by, out, outcome >> 40));
}

bool agree(const line &of, const lent &by)
{
    static uint8_t outs[SIDES][LONGEST_ANSWER];
    uint64_t outcomes[SIDES];
    for (int side = 0; side < SIDES && of.of.sides[side]; side++) {
        outcomes[side] = of.of.sides[side](by, outs[side]);
        if (outcomes[side] % 256 == by.code && right(of.of, by, outcomes[side], outs[side]) &&
            same_outcome(outcomes[side], outs[side], outcomes[0], outs[0]))
            continue;
        printf("%s, %s: %s: outcome %016" PRIx64 ", library %016" PRIx64 ", wanted code %u, or its bytes are wrong\n",
               of.of.name, of.name.c_str(), names[side], outcomes[side], outcomes[0], (unsigned)by.code);
        return false;
    }
    return true;
}

/* Nanoseconds of one call, as the mean over all that is timed, `times` times. */
double time_round(call *called, const std::vector<lent> &timed, unsigned times)
{
    static uint8_t out[LONGEST_ANSWER];
    uint64_t sum = 0;
    double began = now();
    for (unsigned time = 0; time < times; time++)
        for (const lent &by : timed)
            sum += called(by, out);
    double took = now() - began;
    sink = sum;
    return took / times / (double)timed.size();
}

/* As many rounds as the line's time allows, within the two limits. */
size_t rounds_within(double turn)
{
    double rounds = ROW_NANOSECONDS / turn;
    return rounds > MOST_ROUNDS ? MOST_ROUNDS : rounds < LEAST_ROUNDS ? LEAST_ROUNDS : (size_t)rounds;
}

void compare(const line &of)
{
    double rounds[SIDES][MOST_ROUNDS], took[SIDES] = {}, turn = 0;
    unsigned times[SIDES];
    int sides = of.of.sides[SIDES - 1] ? SIDES : SIDES - 1;
    for (int side = 0; side < sides; side++) {
        double once = time_round(of.of.sides[side], of.timed, 1) * (double)of.timed.size();
        times[side] = (unsigned)(ROUND_NANOSECONDS / once) + 1;
        turn += times[side] * once;
    }
    size_t count = rounds_within(turn);
    for (size_t round = 0; round < count; round++)
        for (int side = 0; side < sides; side++)
            rounds[side][round] = time_round(of.of.sides[side], of.timed, times[side]);
    for (int side = 0; side < sides; side++)
        took[side] = median(rounds[side], count) / 1e3;
    printf("%-6s%-55s %11.3f %11.3f", of.of.name, of.name.c_str(), took[0], took[1]);
    if (sides == SIDES)
        printf(" %9.3f %9.2f %9.2f\n", took[2], took[0] / took[1], took[0] / took[2]);
    else
        printf(" %9s %9.2f %9s\n", "", took[0] / took[1], "");
    fflush(stdout);
}

line read_line(const work &of, const char *name, const sheet &job)
{
    return {of, name, {{job, {}, {}, ORMSVELG_ACCEPTED}}, {{{job.begin(), job.end() - 1}, {}, {}, ORMSVELG_ENDS}}};
}

/* The tables fit. With A's row 0 turned they break a rule, or with B's row 255, and both say at which combination. */
line check_line()
{
    sheet tables(LONGEST_ANSWER), job(ORMSVELG_LONGEST_JOB);
    tables.resize(largest_tables(tables.data()));
    job.resize(fitted_job(job.data(), tables.data()));
    line made = {checking, "12 wires, 256 rules at 4096 combinations", {{job, {}, tables, ORMSVELG_TABLES}}, {}};
    for (size_t row : {2, 515}) {
        sheet turned = tables;
        turned[row] ^= 1;
        made.tried.push_back({job, {}, turned, ORMSVELG_BREAKS_RULE});
    }
    return made;
}

line solve_line(const family &of)
{
    line made = {solving, of.name, {}, {}};
    for (const sheet &job : of.sheets) {
        uint8_t out[LONGEST_ANSWER];
        made.timed.push_back({job, {}, {}, (uint32_t)(best_solve(job.data(), job.size(), out, sizeof out) % 256)});
    }
    return made;
}

/* The other way round the widened job asks more: its cells see more. */
line widen_line()
{
    line made = {widening, "12 wires, 6 seen each to 8 seen each, 256 rules", {}, {}};
    for (const widening_pair &of : widenings()) {
        sheet tables(LONGEST_ANSWER), wide(LONGEST_ANSWER);
        tables.resize(best_solve(of.narrow.data(), of.narrow.size(), tables.data(), LONGEST_ANSWER) >> 40);
        wide.resize(best_solve(of.wide.data(), of.wide.size(), wide.data(), LONGEST_ANSWER) >> 40);
        made.timed.push_back({of.narrow, of.wide, tables, ORMSVELG_TABLES});
        made.tried.push_back({of.wide, of.narrow, wide, ORMSVELG_ASKS_MORE});
    }
    return made;
}

/* With room for just the sheet. A byte less is too little, and a last rule with a term of no variable is refused. */
line write_line(const char *name, const sheet &job)
{
    lent exact = {job, {}, {}, ORMSVELG_ACCEPTED, {}, job.size()};
    plain_read_job(form::one, job.data(), job.size(), exact.described);
    lent tight = exact, beyond = exact;
    tight.code = ORMSVELG_NO_ROOM;
    tight.room--;
    beyond.code = ORMSVELG_TOO_HIGH;
    beyond.described.rules[exact.described.rule_count - 1] = UINT32_C(1) << 31;
    return {writing, name, {exact}, {tight, beyond}};
}

/* ---- form two: jobs of the lines above with excuses */

sheet joined(sheet job, const sheet &excuses)
{
    job.insert(job.end(), excuses.begin(), excuses.end());
    return job;
}

sheet excuses_of(unsigned terms)
{
    sheet section(LONGEST_EXCUSES);
    section.resize(mixed_excuses(section.data(), terms));
    return section;
}

line excused_read_line(const sheet &longest)
{
    sheet section(LONGEST_EXCUSES);
    section.resize(longest_excuses(section.data()));
    return read_line(reading_two, "form two: longest sheet, 9059 bytes", joined(longest, section));
}

/* With 6 terms each excuse holds at 64 combinations. The codes are those of plain C++. */
line excused_check_line(const line &from)
{
    line made = {checking_two, "form two: 12 wires, 256 rules, 64 excuses", {}, {}};
    for (const std::vector<lent> *all : {&from.timed, &from.tried})
        for (lent by : *all) {
            by.job = joined(by.job, excuses_of(6));
            by.code = checks<plain_check_two>(by, nullptr) % 256;
            (all == &from.timed ? made.timed : made.tried).push_back(by);
        }
    return made;
}

line excused_solve_line(const family &of)
{
    line made = {solving_two, "form two, 64 excuses: " + of.name.substr(0, of.name.find(':')), {}, {}};
    for (const sheet &job : of.sheets) {
        uint8_t out[LONGEST_ANSWER];
        lent by = {joined(job, excuses_of(8)), {}, {}, 0};
        by.code = solves<plain_solve_two>(by, out) % 256;
        made.timed.push_back(by);
    }
    return made;
}

/* The widened job's excuses have fewer terms. The other way round it asks more: its cells see more. */
line excused_widen_line()
{
    line made = {widening_two, "form two, 64 excuses: 6 seen each to 8 seen each", {}, {}};
    for (const widening_pair &of : widenings()) {
        sheet narrow = joined(of.narrow, excuses_of(8)), wide = joined(of.wide, excuses_of(6));
        sheet tables(LONGEST_ANSWER), wide_tables(LONGEST_ANSWER);
        tables.resize(plain_solve_two(narrow.data(), narrow.size(), tables.data(), LONGEST_ANSWER) >> 40);
        wide_tables.resize(plain_solve_two(wide.data(), wide.size(), wide_tables.data(), LONGEST_ANSWER) >> 40);
        made.timed.push_back({narrow, wide, tables, ORMSVELG_TABLES});
        made.tried.push_back({wide, narrow, wide_tables, ORMSVELG_ASKS_MORE});
    }
    return made;
}

/* ---- from form to form: jobs of the lines above without excuses */

const sheet no_excuses = {0, 0}, empty_excuse = {1, 0, 0};

/* With room for just the sheet in its other form. A byte less is too little, and a job cut short is refused. */
line move_line(const work &of, const char *name, const sheet &job, const sheet &moved)
{
    lent exact = {job, {}, {}, ORMSVELG_ACCEPTED, {}, moved.size(), moved};
    lent tight = exact, cut = exact;
    tight.code = ORMSVELG_NO_ROOM;
    tight.room--;
    cut.code = ORMSVELG_ENDS;
    cut.job.pop_back();
    return {of, name, {exact}, {tight, cut}};
}

line move_to_two_line(const char *name, const sheet &job)
{
    return move_line(moving_to_two, name, job, joined(job, no_excuses));
}

/* An excuse would be lost, even one without terms. */
line move_to_one_line(const char *name, const sheet &job)
{
    line made = move_line(moving_to_one, name, joined(job, no_excuses), job);
    made.tried.push_back({joined(job, empty_excuse), {}, {}, ORMSVELG_EXCUSES_LOST, {}, job.size()});
    return made;
}

std::vector<line> lines()
{
    sheet longest(ORMSVELG_LONGEST_JOB), ordinary(ORMSVELG_LONGEST_JOB);
    longest.resize(longest_job(longest.data()));
    ordinary.resize(ordinary_job(ordinary.data()));
    /* The sheet of the papers' job J3. */
    const sheet j3 = {2, 4, 7, 1, 0, 1, 1, 6, 0, 4, 0, 3, 4, 6, 4, 1, 2, 4,
                      6, 3, 0, 2, 5, 3, 0, 2, 7, 3, 1, 3, 5, 3, 1, 3, 7};
    std::vector<line> made = {read_line(reading, "longest sheet, 7457 bytes", longest),
                              read_line(reading, "ordinary sheet, 291 bytes", ordinary),
                              read_line(reading, "J3, 35 bytes", j3), check_line()};
    const line checked = made.back();
    const std::vector<family> solved = families();
    for (const family &of : solved)
        made.push_back(solve_line(of));
    made.push_back(widen_line());
    made.push_back(write_line("longest sheet, 7457 bytes", longest));
    made.push_back(write_line("ordinary sheet, 291 bytes", ordinary));
    made.push_back(write_line("J3, 35 bytes", j3));
    made.push_back(excused_read_line(longest));
    made.push_back(excused_check_line(checked));
    for (int large : {2, 3})
        made.push_back(excused_solve_line(solved[large]));
    made.push_back(excused_widen_line());
    made.push_back(move_to_two_line("to form two: longest sheet, 7457 bytes", longest));
    made.push_back(move_to_two_line("to form two: ordinary sheet, 291 bytes", ordinary));
    made.push_back(move_to_one_line("to form one: longest sheet, 7459 bytes", longest));
    made.push_back(move_to_one_line("to form one: ordinary sheet, 293 bytes", ordinary));
    return made;
}

}

int main()
{
    printf("%-61s %11s %11s %9s %9s %9s\n", "microseconds of a call", names[0], names[1], names[2], "to plain", "to best");
    for (const line &of : lines()) {
        for (const std::vector<lent> *all : {&of.timed, &of.tried})
            for (const lent &by : *all)
                if (!agree(of, by))
                    return 1;
        compare(of);
    }
    return 0;
}
