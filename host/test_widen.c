/* host/test_widen.c: the widener through the C face, for both forms of job sheets. The widened tables are written out by
 * hand: each row of Q's cell holds the value of P's row shown by the same wires. The lent buffer is filled with a pattern,
 * and every byte that must stay is looked at.
 */
#include "lent.h"

/* J6: one wire, B must equal it, A sees nothing and B the wire. Its answer is A 0, B 01. */
static const uint8_t j6[] = {1, 0, 0, 1, 0, 2, 0, 2, 1, 4, 2, 0, 5};
static const uint8_t j6_tables[] = {1, 0, 0, 2, 0, 0, 1, 0, 0};
/* The same with A seeing the wire too. */
static const uint8_t wide[] = {1, 0, 1, 0, 1, 0, 2, 0, 2, 1, 4, 2, 0, 5};

static uint64_t widen(const uint8_t *p, size_t p_length, const uint8_t *q, size_t q_length, const uint8_t *answer,
                      size_t length, size_t room)
{
    lend();
    return ormsvelg_widen(p, p_length, q, q_length, answer, length, lent, room);
}

static void gives(const char *name, const uint8_t *q, size_t q_length, const uint8_t *sheet, size_t wanted)
{
    uint64_t outcome = widen(j6, sizeof j6, q, q_length, j6_tables, sizeof j6_tables, ORMSVELG_LONGEST_ANSWER);
    expect(name, "the outcome", outcome, ORMSVELG_TABLES | (uint64_t)wanted << 40);
    expect(name, "the sheet's difference", memcmp(lent, sheet, wanted) != 0, 0);
    expect(name, "the checker's outcome for Q", ormsvelg_check(q, q_length, lent, wanted), ORMSVELG_TABLES);
    stays(name, wanted);
}

/* J6 and its tables, with another Q. */
static void asks_more(const char *name, const uint8_t *q, size_t q_length)
{
    uint64_t outcome = widen(j6, sizeof j6, q, q_length, j6_tables, sizeof j6_tables, ORMSVELG_LONGEST_ANSWER);
    expect(name, "the outcome", outcome, ORMSVELG_ASKS_MORE | 3 << 8);
    stays(name, 0);
}

/* J6 to the wide job, with another answer or another room. */
static void refuses(const char *name, const uint8_t *answer, size_t length, size_t room, uint64_t outcome)
{
    expect(name, "the outcome", widen(j6, sizeof j6, wide, sizeof wide, answer, length, room), outcome);
    stays(name, 0);
}

static void form_one(void)
{
    static const uint8_t j7[] = {1, 0, 0, 0, 2, 0, 2, 1, 4, 2, 0, 5};
    static const uint8_t j7_walk[] = {0, 0, 0, 0, 4, 0, 2, 0, 1, 0, 1, 0, 1, 0, 3, 0, 0, 0, 1, 0, 0, 0};
    static const uint8_t left_over[] = {0, 0, 0, 0, 0, 0};
    gives("J6 widened to A seeing the wire too", wide, sizeof wide, SHEET(2, 0, 0, 0, 2, 0, 0, 1, 0, 0));
    gives("J6 to itself", j6, sizeof j6, SHEET(1, 0, 0, 2, 0, 0, 1, 0, 0));
    gives("a rule dropped, one weakened", SHEET(1, 0, 0, 1, 0, 1, 0, 3, 1, 2, 4), SHEET(1, 0, 0, 2, 0, 0, 1, 0, 0));
    asks_more("another pin", SHEET(1, 1, 1, 0, 1, 0, 2, 0, 2, 1, 4, 2, 0, 5));
    asks_more("a wire less", SHEET(0, 0, 0, 0, 0));
    asks_more("B sees less", SHEET(1, 0, 1, 0, 0, 2, 0, 2, 1, 4, 2, 0, 5));
    asks_more("a rule that lacks a term", SHEET(1, 0, 0, 1, 0, 1, 0, 1, 4));
    asks_more("a rule that always holds", SHEET(1, 0, 0, 1, 0, 1, 0, 2, 0, 1));
    refuses("room 8,189", j6_tables, sizeof j6_tables, ORMSVELG_LONGEST_ANSWER - 1, ORMSVELG_NO_ROOM);
    refuses("tables that break a rule", SHEET(1, 0, 0, 2, 0, 1, 1, 0, 0), ROOM, ORMSVELG_BREAKS_RULE | 2 << 8);
    refuses("an empty answer", NULL, 0, ROOM, ORMSVELG_WRONG_LENGTH | 2 << 8);
    expect("P first", "the outcome", widen(left_over, 6, left_over, 6, NULL, 0, 0), ORMSVELG_LEFT_OVER | 1 << 8 | 5 << 16);
    expect("then Q", "the outcome", widen(j6, sizeof j6, left_over, 6, NULL, 0, 0), ORMSVELG_LEFT_OVER | 3 << 8 | 5 << 16);
    expect("15 before 14 and 6", "the outcome", widen(j7, sizeof j7, left_over, 5, j7_walk, sizeof j7_walk, 0),
           ORMSVELG_WALK_GIVEN | 2 << 8);
    expect("14 before 6", "the outcome", widen(j6, sizeof j6, left_over, 5, j6_tables, sizeof j6_tables, 0),
           ORMSVELG_ASKS_MORE | 3 << 8);
    stays("a refusal", 0);
}

/* Two jobs of form two, and an answer for P. */
struct widening {
    const char *name;
    const uint8_t *p;
    size_t p_length;
    const uint8_t *q;
    size_t q_length;
    const uint8_t *answer;
    size_t length;
};

static uint64_t widen_two(const struct widening *given, size_t room)
{
    lend();
    return ormsvelg_widen_two(given->p, given->p_length, given->q, given->q_length, given->answer, given->length, lent,
                              room);
}

/* Gives this sheet for Q, which the checker accepts; a byte of room less is refused. */
static void gives_two(const struct widening *given, const uint8_t *sheet, size_t wanted)
{
    expect(given->name, "the outcome", widen_two(given, ORMSVELG_LONGEST_ANSWER), ORMSVELG_TABLES | (uint64_t)wanted << 40);
    expect(given->name, "the sheet's difference", memcmp(lent, sheet, wanted) != 0, 0);
    expect(given->name, "the checker's outcome for Q", ormsvelg_check_two(given->q, given->q_length, lent, wanted),
           ORMSVELG_TABLES);
    stays(given->name, wanted);
    expect(given->name, "the outcome without room", widen_two(given, ORMSVELG_LONGEST_ANSWER - 1), ORMSVELG_NO_ROOM);
    stays(given->name, 0);
}

/* All of these refusals come before that of the room. */
static void refuses_two(const struct widening *given, uint64_t outcome)
{
    expect(given->name, "the outcome", widen_two(given, ROOM), outcome);
    stays(given->name, 0);
    expect(given->name, "the outcome without room", widen_two(given, 0), outcome);
    stays(given->name, 0);
}

/* J6 with these excuses as P and as Q. Its tables fit with no excuses, so they fit P whatever is excused. */
#define J6_BOTH(p_excuses, q_excuses) SHEET(J6, p_excuses), SHEET(J6, q_excuses), SHEET(J6_TABLES)

/* Each excuse of P contains all terms of some excuse of Q. */
static const struct widening no_more[] = {
    {"none, none", J6_BOTH(NO_EXCUSES, NO_EXCUSES)},
    {"none, 1", J6_BOTH(NO_EXCUSES, ONE_EXCUSE(FIRST))},
    {"none, always", J6_BOTH(NO_EXCUSES, ONE_EXCUSE(ALWAYS))},
    {"none, never", J6_BOTH(NO_EXCUSES, ONE_EXCUSE(NEVER))},
    {"1, 1", J6_BOTH(ONE_EXCUSE(FIRST), ONE_EXCUSE(FIRST))},
    {"1, always", J6_BOTH(ONE_EXCUSE(FIRST), ONE_EXCUSE(ALWAYS))},
    {"always, always", J6_BOTH(ONE_EXCUSE(ALWAYS), ONE_EXCUSE(ALWAYS))},
    {"never, 1", J6_BOTH(ONE_EXCUSE(NEVER), ONE_EXCUSE(FIRST))},
    {"never, 0", J6_BOTH(ONE_EXCUSE(NEVER), ONE_EXCUSE(NOT_FIRST))},
    {"never, never", J6_BOTH(ONE_EXCUSE(NEVER), ONE_EXCUSE(NEVER))},
    {"1, 0 and 1", J6_BOTH(ONE_EXCUSE(FIRST), TWO_EXCUSES(NOT_FIRST, FIRST))},
    {"1 and 0, 0 and 1", J6_BOTH(TWO_EXCUSES(FIRST, NOT_FIRST), TWO_EXCUSES(NOT_FIRST, FIRST))},
    {"1 and never, 1", J6_BOTH(TWO_EXCUSES(FIRST, NEVER), ONE_EXCUSE(FIRST))},
    {"1 and 1, 1", J6_BOTH(TWO_EXCUSES(FIRST, FIRST), ONE_EXCUSE(FIRST))},
    {"1 and 0, always", J6_BOTH(TWO_EXCUSES(FIRST, NOT_FIRST), ONE_EXCUSE(ALWAYS))},
};

/* Some excuse of P does not, even one that can never hold. */
static const struct widening more[] = {
    {"1, none", J6_BOTH(ONE_EXCUSE(FIRST), NO_EXCUSES)},
    {"always, none", J6_BOTH(ONE_EXCUSE(ALWAYS), NO_EXCUSES)},
    {"never, none", J6_BOTH(ONE_EXCUSE(NEVER), NO_EXCUSES)},
    {"always, 1", J6_BOTH(ONE_EXCUSE(ALWAYS), ONE_EXCUSE(FIRST))},
    {"always, never", J6_BOTH(ONE_EXCUSE(ALWAYS), ONE_EXCUSE(NEVER))},
    {"1, 0", J6_BOTH(ONE_EXCUSE(FIRST), ONE_EXCUSE(NOT_FIRST))},
    {"1, never", J6_BOTH(ONE_EXCUSE(FIRST), ONE_EXCUSE(NEVER))},
    {"1 and 0, 1", J6_BOTH(TWO_EXCUSES(FIRST, NOT_FIRST), ONE_EXCUSE(FIRST))},
    {"1 and 0, 0", J6_BOTH(TWO_EXCUSES(FIRST, NOT_FIRST), ONE_EXCUSE(NOT_FIRST))},
    {"always, 1 and 0", J6_BOTH(ONE_EXCUSE(ALWAYS), TWO_EXCUSES(FIRST, NOT_FIRST))},
    {"1 and never, never", J6_BOTH(TWO_EXCUSES(FIRST, NEVER), ONE_EXCUSE(NEVER))},
};

static void excuses(void)
{
    for (size_t i = 0; i < sizeof no_more / sizeof no_more[0]; i++)
        gives_two(&no_more[i], SHEET(J6_TABLES));
    for (size_t i = 0; i < sizeof more / sizeof more[0]; i++)
        refuses_two(&more[i], ORMSVELG_ASKS_MORE | 3 << 8);
}

/* The speed wires with A seeing both; and with the last rule alone, which then has B's plain term too. */
#define SPEED_WIDE 2, 2, 3, 2, 0, 1, 1, 1, SPEED_RULES
#define SPEED_WEAK 2, 2, 3, 1, 0, 1, 1, 1, 0, 3, 5, 6, 7

/* The speed wires with these excuses as P and as Q. A 01, B 01 fits where both are never 1, and wherever more is excused. */
#define SPEEDS(p_excuses, q_excuses) SHEET(SPEED, p_excuses), SHEET(SPEED, q_excuses)
#define NEVER_BOTH ONE_EXCUSE(BOTH)

static const struct widening speeds[] = {
    {"both, both", SPEEDS(NEVER_BOTH, NEVER_BOTH), SHEET(SPEED_TABLES)},
    {"both, the first", SPEEDS(NEVER_BOTH, ONE_EXCUSE(FIRST)), SHEET(SPEED_TABLES)},
    {"both, the second", SPEEDS(NEVER_BOTH, ONE_EXCUSE(SECOND)), SHEET(SPEED_TABLES)},
    {"a rule weakened", SHEET(SPEED, NEVER_BOTH), SHEET(SPEED_WEAK, NEVER_BOTH), SHEET(SPEED_TABLES)},
};

/* A's row of the wider job is the first wire and twice the second. */
static const struct widening wider =
    {"A sees both", SHEET(SPEED, NEVER_BOTH), SHEET(SPEED_WIDE, NEVER_BOTH), SHEET(SPEED_TABLES)};

static void speed_wires(void)
{
    for (size_t i = 0; i < sizeof speeds / sizeof speeds[0]; i++)
        gives_two(&speeds[i], SHEET(SPEED_TABLES));
    gives_two(&wider, SHEET(TABLES(ROWS_4(0, 1, 0, 1), ROWS_2(0, 1))));
}

struct refused {
    struct widening given;
    uint64_t code, sheet, place;
};

/* In their order: P's refusals, Q's, the answer's by P's own excuses, 15, 14. What form one asks of Q stays. */
static const struct refused refused[] = {
    {{"P of form one", SHEET(SPEED), SHEET(SPEED), SHEET(SPEED_TABLES)}, 1, 1, 18},
    {{"P has 65 excuses, Q 66", SPEEDS(TWO(65), TWO(66)), NULL, 0}, 2, 1, 18},
    {{"Q of form one", SHEET(SPEED, NEVER_BOTH), SHEET(SPEED), SHEET(SPEED_TABLES)}, 1, 3, 18},
    {{"Q has 65 excuses", SPEEDS(NO_EXCUSES, TWO(65)), NULL, 0}, 2, 3, 18},
    {{"Q has equal terms", SPEEDS(NO_EXCUSES, ONE_EXCUSE(2, 0, 0)), NULL, 0}, 3, 3, 22},
    {{"Q has a cell's term", SPEEDS(NO_EXCUSES, ONE_EXCUSE(1, 4)), NULL, 0}, 4, 3, 21},
    {{"Q has a byte more", SHEET(SPEED, NO_EXCUSES), SHEET(SPEED, NO_EXCUSES, 0), NULL, 0}, 5, 3, 20},
    {{"an empty answer", SPEEDS(NEVER_BOTH, NO_EXCUSES), NULL, 0}, 7, 2, 0},
    {{"broken at 3, which Q excuses", SPEEDS(NO_EXCUSES, NEVER_BOTH), SHEET(SPEED_TABLES)}, 10, 2, 3},
    {{"steps by 3, which P excuses", SPEEDS(NEVER_BOTH, NO_EXCUSES), SHEET(SPEED_WALK)}, 12, 2, 0},
    {{"a standing walk", SPEEDS(NO_EXCUSES, NEVER_BOTH), SHEET(SPEED_WALK)}, 15, 2, 0},
    {{"15 before 14", SPEEDS(ONE_EXCUSE(NEVER), NO_EXCUSES), SHEET(SPEED_WALK)}, 15, 2, 0},
    {{"the first, both", SPEEDS(ONE_EXCUSE(FIRST), NEVER_BOTH), SHEET(SPEED_TABLES)}, 14, 3, 0},
    {{"both, none", SPEEDS(NEVER_BOTH, NO_EXCUSES), SHEET(SPEED_TABLES)}, 14, 3, 0},
    {{"a rule more", SHEET(SPEED_WEAK, NEVER_BOTH), SHEET(SPEED, NEVER_BOTH), SHEET(SPEED_TABLES)}, 14, 3, 0},
    {{"a wire less", SHEET(SPEED, NEVER_BOTH), SHEET(J7, ONE_EXCUSE(FIRST)), SHEET(SPEED_TABLES)}, 14, 3, 0},
    {{"other pins", SHEET(SPEED, NEVER_BOTH), SHEET(PARITY, NEVER_BOTH), SHEET(SPEED_TABLES)}, 14, 3, 0},
};

static void refusals(void)
{
    for (size_t i = 0; i < sizeof refused / sizeof refused[0]; i++)
        refuses_two(&refused[i].given, refused[i].code | refused[i].sheet << 8 | refused[i].place << 16);
    expect("P of form two in form one", "the outcome", widen(SHEET(J6, NO_EXCUSES), SHEET(J6), SHEET(J6_TABLES), ROOM),
           ORMSVELG_LEFT_OVER | 1 << 8 | 13 << 16);
    expect("Q of form two in form one", "the outcome", widen(SHEET(J6), SHEET(J6, NO_EXCUSES), SHEET(J6_TABLES), ROOM),
           ORMSVELG_LEFT_OVER | 3 << 8 | 13 << 16);
    stays("a refusal in form one", 0);
}

int main(void)
{
    form_one();
    excuses();
    speed_wires();
    refusals();
    return verdict("widener");
}
