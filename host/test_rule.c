/* host/test_rule.c BOOK LINES: the rule that tables break, as the host finds it, against the one that the library tells.
 * The C face does not hand the library's over. The program `outcomes` prints it: LINES is what it prints for BOOK, a book of
 * cases, and for each case has a line of the checker and one of the widener, with all five numbers of the outcome. Here the
 * first four come from the C face and the fifth from host/board.h, and each line must be that to the byte. Before the book
 * come sheets with the rule written by hand.
 */
#include <stdlib.h>

#include "board.h"
#include "lent.h"

/* A file that fills its room is too long. */
#define LONGEST_FILE 16777216
/* The name of a call and five numbers. */
#define LONGEST_LINE 80
/* So many lines of each call with code 10 are wanted, so that the test can't pass by seeing none. */
#define LEAST_BROKEN 100

/* The calls for job sheets of one form. */
struct calls {
    uint64_t (*check)(const uint8_t *, size_t, const uint8_t *, size_t);
    uint64_t (*widen)(const uint8_t *, size_t, const uint8_t *, size_t, const uint8_t *, size_t, uint8_t *, size_t);
};

static const struct calls form_one = {ormsvelg_check, ormsvelg_widen}, form_two = {ormsvelg_check_two, ormsvelg_widen_two};

/* Sheets, a combination, and the lowest rule broken there: its number and its place. Where none is broken the number is how
 * many rules there are, and the place is written as 0. */
struct finding {
    const char *name;
    const struct calls *calls;
    const uint8_t *job;
    size_t job_length;
    const uint8_t *answer;
    size_t length;
    unsigned combination, number;
    size_t place;
};

/* The speed wires' rules are at 9, 12 and 15. Each cell is its wire, so that both are 1 where both wires are, at 3. */
#define BOTH_ONE SHEET(SPEED), SHEET(SPEED_TABLES)
/* A is its wire and B is 0, so that an odd number of wires and cells is 1 where the second wire is: at 2 that wire alone,
 * at 3 both wires and A. Eight rules of five bytes, from 9 on; the second forbids the one, the eighth the other. */
#define ODD SHEET(PARITY), SHEET(TABLES(ROWS_2(0, 1), ROWS_2(0, 0)))
/* Three wires. A sees the last two, B the first and the last; both show row 2 at 4, and at 5 B shows row 3. A's terms are 6
 * and 7, B's 8 and 9. Four rules, at 12, 14, 17 and 19: B is 0; the last wire is 0 or A is 1; A is 1; the first wire is 0 or
 * B is 0. A is 0 in row 2 alone and B 1 in row 3 alone, so that the middle two are broken at 4, all at 5, the outer two at
 * 7, and none elsewhere. */
#define SEVERAL SHEET(3, 0, 1, 2, 2, 1, 2, 2, 0, 2, TWO(4), 1, 9, 2, 5, 6, 1, 6, 2, 1, 9), \
    SHEET(TABLES(ROWS_4(1, 1, 0, 1), ROWS_4(0, 0, 0, 1)))

static const struct finding findings[] = {
    {"no rules", &form_one, SHEET(J1), SHEET(J1_TABLES), 0, 0, 0},
    {"J2 at 0", &form_one, SHEET(J2), SHEET(J2_TABLES), 0, 2, 0},
    {"J2 at 1", &form_one, SHEET(J2), SHEET(J2_TABLES), 1, 2, 0},
    {"the empty rule", &form_one, SHEET(J4), SHEET(J1_TABLES), 0, 0, 5},
    {"J7 at 0", &form_one, SHEET(J7), SHEET(J1_TABLES), 0, 2, 0},
    {"J7 at 1", &form_one, SHEET(J7), SHEET(J1_TABLES), 1, 1, 9},
    {"speed wires at 0", &form_one, BOTH_ONE, 0, 3, 0},
    {"speed wires at 1", &form_one, BOTH_ONE, 1, 3, 0},
    {"speed wires at 2", &form_one, BOTH_ONE, 2, 3, 0},
    {"speed wires at 3", &form_one, BOTH_ONE, 3, 2, 15},
    {"speed wires at 3, excused", &form_two, SHEET(SPEED, ONE_EXCUSE(BOTH)), SHEET(SPEED_TABLES), 3, 2, 15},
    {"odd at 0", &form_one, ODD, 0, 8, 0},
    {"odd at 1", &form_one, ODD, 1, 8, 0},
    {"odd at 2", &form_one, ODD, 2, 1, 14},
    {"odd at 3", &form_one, ODD, 3, 7, 44},
    {"several at 3", &form_one, SEVERAL, 3, 4, 0},
    {"several at 4", &form_one, SEVERAL, 4, 1, 14},
    {"several at 5", &form_one, SEVERAL, 5, 0, 12},
    {"several at 6", &form_one, SEVERAL, 6, 4, 0},
    {"several at 7", &form_one, SEVERAL, 7, 0, 12},
};

/* The sheets must be accepted, so that the outcome is that tables fit or break a rule. */
static void find(const struct finding *finding)
{
    uint64_t outcome = finding->calls->check(finding->job, finding->job_length, finding->answer, finding->length);
    uint32_t code = ormsvelg_code(outcome);
    expect(finding->name, "whether tables are accepted", code == ORMSVELG_TABLES || code == ORMSVELG_BREAKS_RULE, 1);
    struct broken broken = lowest_broken(finding->job, finding->answer, finding->combination);
    size_t place = broken.rule == NULL ? 0 : (size_t)(broken.rule - finding->job);
    expect(finding->name, "the rule", broken.number, finding->number);
    expect(finding->name, "its place", place, finding->place);
}

static void by_hand(void)
{
    for (size_t i = 0; i < sizeof findings / sizeof findings[0]; i++)
        find(&findings[i]);
}

static void fail(const char *what, const char *which)
{
    printf("rule: %s%s\n", what, which);
    exit(1);
}

static uint8_t book_room[LONGEST_FILE], lines_room[LONGEST_FILE];

/* The bytes of a file that are not taken yet. */
struct rest {
    const uint8_t *at;
    size_t left;
};

static struct rest bytes_of(const char *path, uint8_t *room)
{
    size_t length = 0;
    if (fetch(path, room, LONGEST_FILE, &length) != 0)
        fail("cannot read ", path);
    if (length == LONGEST_FILE)
        fail("too long: ", path);
    return (struct rest){room, length};
}

static const uint8_t *take_bytes(struct rest *book, size_t count)
{
    const uint8_t *taken = book->at;
    if (book->left < count)
        fail("the book ends within a case, or within its count", "");
    book->at += count;
    book->left -= count;
    return taken;
}

/* A sheet in room of exactly its length, so that the sanitizers see what would be read beyond it. */
struct copy {
    uint8_t *bytes;
    size_t length;
};

static struct copy take_sheet(struct rest *book)
{
    size_t length = word(take_bytes(book, 2));
    const uint8_t *bytes = take_bytes(book, length);
    struct copy copy = {malloc(length), length};
    if (copy.bytes == NULL && length > 0)
        fail("no memory", "");
    if (length > 0)
        memcpy(copy.bytes, bytes, length);
    return copy;
}

/* A case of the book, and its name. */
struct trial {
    char name[32];
    const struct calls *calls;
    struct copy p, q, answer;
};

/* The form in a byte, 1 if it is not 2; then P, Q and the answer, each after its length in two bytes. */
static struct trial take_trial(struct rest *book, unsigned number)
{
    struct trial trial;
    snprintf(trial.name, sizeof trial.name, "case %u", number);
    trial.calls = take_bytes(book, 1)[0] == 2 ? &form_two : &form_one;
    trial.p = take_sheet(book);
    trial.q = take_sheet(book);
    trial.answer = take_sheet(book);
    return trial;
}

static void drop(struct trial *trial)
{
    free(trial->p.bytes);
    free(trial->q.bytes);
    free(trial->answer.bytes);
}

/* In form one no combination is excused: none below the first that is told breaks a rule, and where tables fit none does. */
static void breaks_none_below(const struct trial *trial, unsigned first)
{
    unsigned combination = 0;
    while (combination < first && lowest_broken(trial->p.bytes, trial->answer.bytes, combination).rule == NULL)
        combination++;
    expect(trial->name, "the first combination that breaks a rule", combination, first);
}

/* The fifth number of an outcome. `seen` counts those with code 10. */
static unsigned rule_of(const struct trial *trial, uint64_t outcome, unsigned *seen)
{
    if (ormsvelg_code(outcome) != ORMSVELG_BREAKS_RULE)
        return 0;
    struct broken broken = lowest_broken(trial->p.bytes, trial->answer.bytes, ormsvelg_place(outcome));
    expect(trial->name, "whether a broken rule is found", broken.rule != NULL, 1);
    ++*seen;
    return broken.number;
}

/* The next line with its line feed, or all that is left where there is none. */
static struct rest take_line(struct rest *lines)
{
    const uint8_t *feed = lines->left == 0 ? NULL : memchr(lines->at, '\n', lines->left);
    struct rest line = {lines->at, feed == NULL ? lines->left : (size_t)(feed - lines->at) + 1};
    lines->at += line.left;
    lines->left -= line.left;
    return line;
}

static void expect_line(const struct trial *trial, struct rest line, const char *call, uint64_t outcome, unsigned rule)
{
    char wanted[LONGEST_LINE];
    int length = snprintf(wanted, sizeof wanted, "%s %u %u %u %u %u\n", call, (unsigned)ormsvelg_code(outcome),
                          (unsigned)ormsvelg_sheet(outcome), (unsigned)ormsvelg_place(outcome),
                          (unsigned)ormsvelg_written(outcome), rule);
    int same = line.left == (size_t)length && memcmp(line.at, wanted, line.left) == 0;
    expect(trial->name, "whether the line is right", (uint64_t)same, 1);
    if (!same)
        printf("  it is:         %.*s\n  and should be: %s", (int)line.left, (const char *)line.at, wanted);
}

/* How many lines of each call had code 10. */
struct seen {
    unsigned check, widen;
};

static void check_line(const struct trial *trial, struct rest *lines, struct seen *seen)
{
    uint64_t outcome = trial->calls->check(trial->p.bytes, trial->p.length, trial->answer.bytes, trial->answer.length);
    expect_line(trial, take_line(lines), "check", outcome, rule_of(trial, outcome, &seen->check));
    if (trial->calls != &form_one)
        return;
    if (ormsvelg_code(outcome) == ORMSVELG_BREAKS_RULE)
        breaks_none_below(trial, ormsvelg_place(outcome));
    if (ormsvelg_code(outcome) == ORMSVELG_TABLES)
        breaks_none_below(trial, 1u << board_of(trial->p.bytes).wires);
}

static void widen_line(const struct trial *trial, struct rest *lines, struct seen *seen)
{
    lend();
    uint64_t outcome = trial->calls->widen(trial->p.bytes, trial->p.length, trial->q.bytes, trial->q.length,
                                           trial->answer.bytes, trial->answer.length, lent, ORMSVELG_LONGEST_ANSWER);
    expect_line(trial, take_line(lines), "widen", outcome, rule_of(trial, outcome, &seen->widen));
    stays(trial->name, ormsvelg_written(outcome));
}

/* The number of cases in two bytes, and then the cases. Each has its two lines, and nothing follows. */
static void by_book(struct rest book, struct rest lines)
{
    struct seen seen = {0, 0};
    unsigned cases = word(take_bytes(&book, 2));
    for (unsigned number = 0; number < cases; number++) {
        struct trial trial = take_trial(&book, number);
        check_line(&trial, &lines, &seen);
        widen_line(&trial, &lines, &seen);
        drop(&trial);
    }
    expect("the book", "the number of bytes left over", book.left, 0);
    expect("the lines", "the number of bytes left over", lines.left, 0);
    expect("the book", "whether the checker has enough cases with code 10", seen.check >= LEAST_BROKEN, 1);
    expect("the book", "whether the widener has enough cases with code 10", seen.widen >= LEAST_BROKEN, 1);
    printf("rule: of %u cases %u of the checker and %u of the widener with code 10\n", cases, seen.check, seen.widen);
}

int main(int count, char **words)
{
    if (count != 3) {
        puts("usage: test_rule BOOK LINES");
        return 2;
    }
    by_hand();
    by_book(bytes_of(words[1], book_room), bytes_of(words[2], lines_room));
    return verdict("rule");
}
