/* host/test_move.c: the movers through the C face, there and back. Sheets and refusals are written out by hand from the two
 * forms: a moved sheet has two bytes more or less, the count of no excuses. Codes are numbers, so that the header's names
 * are tested too. That it is the same job is asked of the solver and the checker of both forms.
 * The lent buffer is filled with a pattern, and every byte that must stay is looked at.
 */
#include "lent.h"

#define LONGEST_ONE 7457
#define LONGEST_TWO 9059

/* The calls for sheets of one form; `move` takes them to the other. */
struct form {
    uint64_t (*move)(const uint8_t *, size_t, uint8_t *, size_t);
    uint64_t (*read)(const uint8_t *, size_t);
    uint64_t (*solve)(const uint8_t *, size_t, uint8_t *, size_t);
    uint64_t (*check)(const uint8_t *, size_t, const uint8_t *, size_t);
};

static const struct form one = {ormsvelg_to_two, ormsvelg_read, ormsvelg_solve, ormsvelg_check};
static const struct form two = {ormsvelg_to_one, ormsvelg_read_two, ormsvelg_solve_two, ormsvelg_check_two};

/* A job sheet of a form. */
struct sheet {
    const struct form *form;
    const uint8_t *bytes;
    size_t length;
};

/* A job of form one and an answer for it: the first pair, code 20, or a walk that stands, 21. */
struct job {
    const char *name;
    const uint8_t *bytes;
    size_t length;
    const uint8_t *answer;
    size_t answer_length;
    uint64_t code;
};

struct refused {
    const char *name;
    const uint8_t *bytes;
    size_t length;
    uint64_t code, place;
};

static const struct job jobs[] = {
    {"J1", SHEET(J1), SHEET(J1_TABLES), 20},
    {"J2", SHEET(J2), SHEET(J2_TABLES), 20},
    {"J3", SHEET(J3), SHEET(J3_WALK), 21},
    {"J4", SHEET(J4), SHEET(J4_WALK), 21},
    {"J5", SHEET(J5), SHEET(J5_TABLES), 20},
    {"J6", SHEET(J6), SHEET(J6_TABLES), 20},
    {"J6 widened", SHEET(J6_WIDE), SHEET(TABLES(ROWS_2(0, 0), ROWS_2(0, 1))), 20},
    {"J7", SHEET(J7), SHEET(J7_WALK), 21},
    {"equal when the wires are", SHEET(PARITY), SHEET(TABLES(ROWS_2(0, 1), ROWS_2(0, 1))), 20},
    {"speed wires", SHEET(SPEED), SHEET(SPEED_WALK), 21},
};

/* Answers that are right for some of the jobs and wrong for others, and some that are wrong for all. */
static const struct {
    const uint8_t *bytes;
    size_t length;
} answers[] = {
    {SHEET(J1_TABLES)}, {SHEET(J2_TABLES)}, {SHEET(J3_WALK)}, {SHEET(J4_WALK)}, {SHEET(J5_TABLES)}, {SHEET(J5_WALK)},
    {SHEET(J6_TABLES)}, {SHEET(J7_WALK)}, {SHEET(SPEED_TABLES)}, {SHEET(SPEED_WALK)},
    {SHEET(TABLES(ROWS_1(1), ROWS_1(1)))}, {SHEET(TABLES(ROWS_1(1), ROWS_2(1, 0)))},
    {SHEET(TABLES(ROWS_2(1, 1), ROWS_2(1, 1)))}, {SHEET(TABLES(ROWS_2(1, 1), ROWS_2(0, 0)))},
    {NULL, 0}, {SHEET(TWO(9))}, {SHEET(TWO(1), 2)}, {SHEET(J1_TABLES, 0)}, {SHEET(WALK(1, ENTRY(0, 0)))},
    {SHEET(WALK(1, ENTRY(65535, 0)))}, {SHEET(WALK(1, ENTRY(0, 4096)))},
};

/* The sections before the excuses, in either form. */
static const struct refused in_both_forms[] = {
    {"empty", NULL, 0, 1, 0},
    {"no rules' count", SHEET(0, 0, 0), 1, 3},
    {"one byte of the rules' count", SHEET(0, 0, 0, 1), 1, 4},
    {"no byte of the one rule", SHEET(0, 0, 0, TWO(1)), 1, 5},
    {"13 wires", SHEET(13), 2, 0},
    {"A sees 9 wires", SHEET(1, 4, 9), 2, 2},
    {"B sees 9 wires", SHEET(1, 4, 0, 9), 2, 3},
    {"257 rules", SHEET(0, 0, 0, TWO(257), NO_EXCUSES), 2, 3},
    {"5 terms of 4", SHEET(0, 0, 0, TWO(1), 5, 0, 1, 2, 3, 3, NO_EXCUSES), 2, 5},
    {"a pin twice", SHEET(2, 4, 4, 0, 0, TWO(0), NO_EXCUSES), 3, 2},
    {"A sees a wire twice", SHEET(2, 4, 7, 2, 1, 1, 0, TWO(0), NO_EXCUSES), 3, 5},
    {"a term twice", SHEET(0, 0, 0, TWO(1), 2, 3, 3, NO_EXCUSES), 3, 7},
    {"B sees wire 1 of 1", SHEET(1, 4, 0, 1, 1, TWO(0), NO_EXCUSES), 4, 4},
    {"term 4 of 4", SHEET(0, 0, 0, TWO(1), 1, 4, NO_EXCUSES), 4, 6},
};

/* A byte more than form one has, be it the count of no excuses. */
static const struct refused in_form_one[] = {
    {"J1 and a byte", SHEET(J1, 0), 5, 5},
    {"J1 in form two", SHEET(J1, NO_EXCUSES), 5, 5},
    {"J4 and many bytes", SHEET(J4, 9, 9, 9, 9, 9), 5, 6},
    {"never both", SHEET(SPEED, ONE_EXCUSE(BOTH)), 5, 18},
    {"65 excuses", SHEET(SPEED, TWO(65)), 5, 18},
};

/* Faults of the fifth section, which begins at 5 after J1, at 12 after J7 and at 18 after the speed wires. Each of them
 * comes before 16, and so do bytes left over after excuses. */
static const struct refused in_form_two[] = {
    {"J1 in form one", SHEET(J1), 1, 5},
    {"one byte of the count, 0", SHEET(J1, 0), 1, 6},
    {"one byte of the count, 1", SHEET(J1, 1), 1, 6},
    {"no byte of the one excuse", SHEET(J1, TWO(1)), 1, 7},
    {"no byte of the second excuse", SHEET(SPEED, TWO(2), BOTH), 1, 23},
    {"one term of two", SHEET(SPEED, TWO(1), 2, 0), 1, 22},
    {"65 excuses", SHEET(J1, TWO(65)), 2, 5},
    {"256 excuses, low byte 0", SHEET(J1, TWO(256)), 2, 5},
    {"a term of no wires", SHEET(J1, ONE_EXCUSE(1, 0)), 2, 7},
    {"3 terms of one wire", SHEET(J7, ONE_EXCUSE(3, 0, 1, 2)), 2, 14},
    {"a term twice", SHEET(SPEED, ONE_EXCUSE(2, 2, 2)), 3, 22},
    {"falling terms in the second excuse", SHEET(SPEED, TWO_EXCUSES(ALWAYS, 2, 3, 2)), 3, 23},
    {"a cell's term", SHEET(SPEED, ONE_EXCUSE(1, 4)), 4, 21},
    {"a cell's term, and a byte", SHEET(SPEED, ONE_EXCUSE(1, 7), 0), 4, 21},
    {"no excuses, and a byte", SHEET(J1, NO_EXCUSES, 0), 5, 7},
    {"no excuses, twice", SHEET(SPEED, NO_EXCUSES, NO_EXCUSES), 5, 20},
    {"never both, and a byte", SHEET(SPEED, ONE_EXCUSE(BOTH), 0), 5, 23},
    {"two that always hold, and a byte", SHEET(J1, TWO_EXCUSES(ALWAYS, ALWAYS), 0), 5, 9},
};

/* Any excuse, whatever it excuses, at the first byte of their count. */
static const struct refused lost[] = {
    {"never both", SHEET(SPEED, ONE_EXCUSE(BOTH)), 16, 18},
    {"one that always holds", SHEET(SPEED, ONE_EXCUSE(ALWAYS)), 16, 18},
    {"one that never holds", SHEET(SPEED, ONE_EXCUSE(NEVER)), 16, 18},
    {"all terms", SHEET(SPEED, ONE_EXCUSE(4, 0, 1, 2, 3)), 16, 18},
    {"equal ones", SHEET(SPEED, TWO_EXCUSES(BOTH, BOTH)), 16, 18},
    {"always and never", SHEET(SPEED, TWO_EXCUSES(ALWAYS, NEVER)), 16, 18},
    {"J2, never", SHEET(J2, ONE_EXCUSE(NEVER)), 16, 14},
    {"J7, the wire at 1 and at 0", SHEET(J7, TWO_EXCUSES(FIRST, NOT_FIRST)), 16, 12},
};

/* With a buffer of `room` bytes: an outcome that leaves every byte as it was. */
static void leaves(const char *name, const struct sheet *sheet, size_t room, uint64_t outcome)
{
    lend();
    expect(name, "the outcome", sheet->form->move(sheet->bytes, sheet->length, lent, room), outcome);
    stays(name, 0);
}

static void gives(const char *name, const struct sheet *sheet, size_t room, const struct sheet *wanted)
{
    lend();
    expect(name, "the outcome", sheet->form->move(sheet->bytes, sheet->length, lent, room), (uint64_t)wanted->length << 40);
    expect(name, "the sheet's difference", memcmp(lent, wanted->bytes, wanted->length) != 0, 0);
    expect(name, "the reader's outcome", wanted->form->read(lent, wanted->length), 0);
    stays(name, wanted->length);
}

/* A buffer of the moved sheet's length, longer ones, one that is a byte short, and none. */
static void gives_with_any_room(const char *name, const struct sheet *sheet, const struct sheet *wanted)
{
    gives(name, sheet, wanted->length, wanted);
    gives(name, sheet, wanted->length + 1, wanted);
    gives(name, sheet, ROOM, wanted);
    leaves(name, sheet, wanted->length - 1, 6);
    leaves(name, sheet, 0, 6);
    expect(name, "the outcome for a null buffer", sheet->form->move(sheet->bytes, sheet->length, NULL, 0), 6);
}

/* Moves a sheet, and what was written moves back to it. */
static void comes_back(const char *name, const struct sheet *sheet, const struct form *other)
{
    static uint8_t moved[ROOM];
    uint64_t outcome = sheet->form->move(sheet->bytes, sheet->length, moved, sizeof moved);
    gives(name, &(struct sheet){other, moved, ormsvelg_written(outcome)}, ROOM, sheet);
}

/* The solver's answer for one form is the first pair, or a walk, and the checker takes it for the other form too. */
static void solves(const struct job *job, const struct sheet *sheet, const struct sheet *other)
{
    static uint8_t answer[ORMSVELG_LONGEST_ANSWER];
    uint64_t outcome = sheet->form->solve(sheet->bytes, sheet->length, answer, sizeof answer);
    size_t written = ormsvelg_written(outcome);
    expect(job->name, "the solver's code", ormsvelg_code(outcome), job->code);
    expect(job->name, "the other checker's outcome", other->form->check(other->bytes, other->length, answer, written),
           job->code);
    if (job->code == 21)
        return;
    expect(job->name, "the tables' length", written, job->answer_length);
    expect(job->name, "the tables' difference", memcmp(answer, job->answer, job->answer_length) != 0, 0);
}

/* The answer written by hand is right; every part of it ends early, and a byte after it is left over: 7. */
static void checks_answer(const struct job *job, const struct sheet *sheet)
{
    uint8_t more[1024] = {0};
    uint64_t (*check)(const uint8_t *, size_t, const uint8_t *, size_t) = sheet->form->check;
    size_t length = job->answer_length;
    memcpy(more, job->answer, length);
    for (size_t part = 0; part < length; part++)
        expect(job->name, "the outcome of a part", check(sheet->bytes, sheet->length, more, part),
               7 | 2 << 8 | (uint64_t)part << 16);
    expect(job->name, "the checker's outcome", check(sheet->bytes, sheet->length, more, length), job->code);
    expect(job->name, "the outcome of a byte more", check(sheet->bytes, sheet->length, more, length + 1),
           7 | 2 << 8 | (uint64_t)length << 16);
}

static void checks_alike(const char *name, const struct sheet *sheet, const struct sheet *moved)
{
    for (size_t i = 0; i < sizeof answers / sizeof answers[0]; i++)
        expect(name, "the checker's outcome after the move",
               moved->form->check(moved->bytes, moved->length, answers[i].bytes, answers[i].length),
               sheet->form->check(sheet->bytes, sheet->length, answers[i].bytes, answers[i].length));
}

/* A job in both forms. */
static void moves(const struct job *job)
{
    static uint8_t longer[LONGEST_ONE + 2];
    const struct sheet before = {&one, job->bytes, job->length}, after = {&two, longer, job->length + 2};
    memcpy(longer, job->bytes, job->length);
    longer[job->length] = 0;
    longer[job->length + 1] = 0;
    gives_with_any_room(job->name, &before, &after);
    gives_with_any_room(job->name, &after, &before);
    comes_back(job->name, &before, &two);
    comes_back(job->name, &after, &one);
    solves(job, &before, &after);
    solves(job, &after, &before);
    checks_answer(job, &before);
    checks_answer(job, &after);
    checks_alike(job->name, &before, &after);
}

/* A refusal of sheet 1, whatever the room: it comes before 6. */
static void refuses(const struct refused *wanted, const struct form *form)
{
    const struct sheet sheet = {form, wanted->bytes, wanted->length};
    uint64_t outcome = wanted->code | 1 << 8 | wanted->place << 16;
    leaves(wanted->name, &sheet, ROOM, outcome);
    leaves(wanted->name, &sheet, 1, outcome);
    expect(wanted->name, "the outcome for a null buffer", form->move(sheet.bytes, sheet.length, NULL, 0), outcome);
}

static void refuses_all(const struct refused *table, size_t count, const struct form *form)
{
    for (size_t i = 0; i < count; i++)
        refuses(&table[i], form);
}

#define REFUSES_ALL(table, form) refuses_all(table, sizeof table / sizeof table[0], form)

/* Each part of a sheet ends where a byte is called for. */
static void prefixes(const char *name, const struct form *form, const uint8_t *bytes, size_t length)
{
    lend();
    for (size_t part = 0; part < length; part++)
        expect(name, "the outcome", form->move(bytes, part, lent, ROOM), 1 | 1 << 8 | (uint64_t)part << 16);
    stays(name, 0);
}

static void some_prefixes(void)
{
    for (size_t i = 0; i < sizeof jobs / sizeof jobs[0]; i++)
        prefixes(jobs[i].name, &one, jobs[i].bytes, jobs[i].length);
    prefixes("part of J1 in form two", &two, SHEET(J1, NO_EXCUSES));
    prefixes("part of J3 in form two", &two, SHEET(J3, NO_EXCUSES));
    prefixes("part of never both", &two, SHEET(SPEED, ONE_EXCUSE(BOTH)));
}

/* After J1 the excuses' count is at 5. With no wires an excuse has no terms: one byte, 0. */
static void any_number_lost(void)
{
    uint8_t sheet[128] = {J1};
    refuses(&(struct refused){"65 excuses", sheet, rising_sets(sheet, 5, 65, 0), 2, 5}, &two);
    for (unsigned excuses = 1; excuses <= 64; excuses++)
        refuses(&(struct refused){"1 to 64 excuses", sheet, rising_sets(sheet, 5, excuses, 0), 16, 5}, &two);
    gives("no excuses", &(struct sheet){&two, sheet, rising_sets(sheet, 5, 0, 0)}, 5, &(struct sheet){&one, SHEET(J1)});
}

/* 12 wires, 8 seen by each cell, 256 rules of all 28 terms, which always hold: tables of 0 are the first that fit. */
static void longest_sheets(void)
{
    static uint8_t sheet[LONGEST_TWO + 1], tables[518] = {[1] = 1, [259] = 1};
    size_t length = rising_sheet(sheet, 12, 8, 8, 256, 28);
    expect("the longest sheet of form one", "the length", length, LONGEST_ONE);
    moves(&(struct job){"the longest sheet of form one", sheet, LONGEST_ONE, tables, sizeof tables, 20});
    prefixes("part of the longest sheet of form one", &one, sheet, LONGEST_ONE);
    refuses(&(struct refused){"the longest sheet of form one and a byte", sheet, LONGEST_ONE + 1, 5, LONGEST_ONE}, &one);
    refuses(&(struct refused){"the longest sheet without excuses and a byte", sheet, LONGEST_ONE + 3, 5, LONGEST_ONE + 2},
            &two);
    expect("the longest sheet", "the length", rising_sets(sheet, length, 64, 24), LONGEST_TWO);
    refuses(&(struct refused){"the longest sheet", sheet, LONGEST_TWO, 16, LONGEST_ONE}, &two);
    refuses(&(struct refused){"the longest sheet and a byte", sheet, LONGEST_TWO + 1, 5, LONGEST_TWO}, &two);
    refuses(&(struct refused){"the longest sheet in form one", sheet, LONGEST_TWO, 5, LONGEST_ONE}, &one);
    prefixes("part of the longest sheet", &two, sheet, LONGEST_TWO);
}

int main(void)
{
    for (size_t i = 0; i < sizeof jobs / sizeof jobs[0]; i++)
        moves(&jobs[i]);
    REFUSES_ALL(in_both_forms, &one);
    REFUSES_ALL(in_both_forms, &two);
    REFUSES_ALL(in_form_one, &one);
    REFUSES_ALL(in_form_two, &two);
    REFUSES_ALL(lost, &two);
    some_prefixes();
    any_number_lost();
    longest_sheets();
    expect("excuses lost", "the code's name", ORMSVELG_EXCUSES_LOST, 16);
    return verdict("mover");
}
