/* host/test_write.c: the writer through the C face. Sheets and refusals are written out by hand from the form of a job
 * sheet and the order of the refusals; codes and sections are numbers, so that the header's names are tested too.
 * The lent buffer is filled with a pattern, and every byte that must stay is looked at.
 */
#include "lent.h"

#define T(term) ((uint32_t)1 << (term))
#define RULES(...) (const uint32_t[]){__VA_ARGS__}, sizeof((uint32_t[]){__VA_ARGS__}) / sizeof(uint32_t)
#define NONE NULL, 0
#define UP_TO_12 SHEET(0, 1, 2, 3, 4, 5, 6, 7, 8, 9, 10, 11)
#define UP_TO_13 SHEET(0, 1, 2, 3, 4, 5, 6, 7, 8, 9, 10, 11, 12)
/* With n wires: 2n + 4 terms, and so one more. */
#define ALL_TERMS_OF_12 0x0FFFFFFF
#define ONE_TERM_MORE 0x1FFFFFFF

struct job {
    const uint8_t *pins;
    size_t pins_len;
    uint32_t sees_a, sees_b;
    const uint32_t *rules;
    size_t rules_len;
};

struct written {
    const char *name;
    struct job job;
    const uint8_t *sheet;
    size_t length;
};

struct refused {
    const char *name;
    struct job job;
    size_t room;
    uint64_t code, section, place;
};

static const uint32_t empty_rules[1000];
static uint32_t full_rules[257];

/* The papers' jobs. With one wire its terms are 0 and 1, A's 2 and 3, B's 4 and 5. */
static const struct written written[] = {
    {"J1", {NONE, 0, 0, NONE}, SHEET(0, 0, 0, 0, 0)},
    {"J2", {SHEET(4), 1, 1, RULES(T(2) | T(4), T(3) | T(5))}, SHEET(1, 4, 1, 0, 1, 0, 2, 0, 2, 2, 4, 2, 3, 5)},
    {"J3",
     {SHEET(4, 7), 1, 2,
      RULES(T(0) | T(3) | T(4) | T(6), T(1) | T(2) | T(4) | T(6), T(0) | T(2) | T(5), T(0) | T(2) | T(7),
            T(1) | T(3) | T(5), T(1) | T(3) | T(7))},
     SHEET(2, 4, 7, 1, 0, 1, 1, 6, 0, 4, 0, 3, 4, 6, 4, 1, 2, 4, 6, 3, 0, 2, 5, 3, 0, 2, 7, 3, 1, 3, 5, 3, 1, 3, 7)},
    {"J4", {NONE, 0, 0, RULES(0)}, SHEET(0, 0, 0, 1, 0, 0)},
    {"J5", {NONE, 0, 0, RULES(T(0) | T(2), T(1) | T(3))}, SHEET(0, 0, 0, 2, 0, 2, 0, 2, 2, 1, 3)},
    {"J6", {SHEET(4), 0, 1, RULES(T(0) | T(5), T(1) | T(4))}, SHEET(1, 4, 0, 1, 0, 2, 0, 2, 0, 5, 2, 1, 4)},
    {"J6 on pin 0, rules exchanged", {SHEET(0), 0, 1, RULES(T(1) | T(4), T(0) | T(5))},
     SHEET(1, 0, 0, 1, 0, 2, 0, 2, 1, 4, 2, 0, 5)},
    {"J6 widened", {SHEET(4), 1, 1, RULES(T(0) | T(5), T(1) | T(4))}, SHEET(1, 4, 1, 0, 1, 0, 2, 0, 2, 0, 5, 2, 1, 4)},
    {"J7", {SHEET(4), 0, 0, RULES(T(0) | T(5), T(1) | T(4))}, SHEET(1, 4, 0, 0, 2, 0, 2, 0, 5, 2, 1, 4)},
    {"the highest pins, and only the last wire seen", {SHEET(0, 254, 255), 4, 4, NONE},
     SHEET(3, 0, 254, 255, 1, 2, 1, 2, 0, 0)},
    {"eight seen wires of twelve", {UP_TO_12, 0xFF0, 0x5F5, RULES(T(27))},
     SHEET(12, 0, 1, 2, 3, 4, 5, 6, 7, 8, 9, 10, 11, 8, 4, 5, 6, 7, 8, 9, 10, 11, 8, 0, 2, 4, 5, 6, 7, 8, 10, 1, 0, 1, 27)},
    {"equal rules, and a term with its opposite", {NONE, 0, 0, RULES(T(0) | T(1), T(0) | T(1), 0xF)},
     SHEET(0, 0, 0, 3, 0, 2, 0, 1, 2, 0, 1, 4, 0, 1, 2, 3)},
};

/* In the order in which they are looked for. */
static const struct refused refused[] = {
    {"13 pins", {UP_TO_13, 0, 0, NONE}, ROOM, 2, 1, 0},
    {"1,000 pins", {(const uint8_t *)empty_rules, 1000, 0, 0, NONE}, ROOM, 2, 1, 0},
    {"a pin twice", {SHEET(4, 4), 0, 0, NONE}, ROOM, 3, 1, 1},
    {"a falling pin", {SHEET(7, 4), 0, 0, NONE}, ROOM, 3, 1, 1},
    {"the last pin falls", {SHEET(0, 1, 2, 3, 4, 5, 6, 7, 8, 9, 255, 0), 0, 0, NONE}, ROOM, 3, 1, 11},
    {"the first of two falls", {SHEET(3, 5, 1, 0), 0, 0, NONE}, ROOM, 3, 1, 2},
    {"A sees 9 wires", {UP_TO_12, 0x1FF, 0, NONE}, ROOM, 2, 2, 0},
    {"A sees 32 wires", {NONE, 0xFFFFFFFF, 0, NONE}, ROOM, 2, 2, 0},
    {"A sees wires 0, 5 and 9 of 2", {SHEET(4, 7), 1 | T(5) | T(9), 0, NONE}, ROOM, 4, 2, 1},
    {"A sees wire 0 of none", {NONE, 1, 0, NONE}, ROOM, 4, 2, 0},
    {"A sees wires 0 to 6 of 7, and 31", {SHEET(0, 1, 2, 3, 4, 5, 6), 0x7F | T(31), 0, NONE}, ROOM, 4, 2, 7},
    {"A sees wire 12 of 12", {UP_TO_12, T(12), 0, NONE}, ROOM, 4, 2, 0},
    {"B sees 9 wires", {UP_TO_12, 0xFF, 0x1FF, NONE}, ROOM, 2, 3, 0},
    {"B sees 32 wires", {NONE, 0, 0xFFFFFFFF, NONE}, ROOM, 2, 3, 0},
    {"B sees wires 0, 5 and 9 of 2", {SHEET(4, 7), 3, 1 | T(5) | T(9), NONE}, ROOM, 4, 3, 1},
    {"B sees wire 1 of 1", {SHEET(4), 1, 2, NONE}, ROOM, 4, 3, 0},
    {"B sees wires 0 and 31 of 1", {SHEET(4), 0, 1 | T(31), NONE}, ROOM, 4, 3, 1},
    {"257 rules", {NONE, 0, 0, empty_rules, 257}, ROOM, 2, 4, 0},
    {"1,000 rules", {NONE, 0, 0, empty_rules, 1000}, ROOM, 2, 4, 0},
    {"5 terms of 4", {NONE, 0, 0, RULES(0x1F)}, ROOM, 2, 4, 0},
    {"29 terms of 28, in rule 1", {UP_TO_12, 0, 0, RULES(ALL_TERMS_OF_12, ONE_TERM_MORE)}, ROOM, 2, 4, 1},
    {"32 terms of 28, in rule 2", {UP_TO_12, 0, 0, RULES(0, 0, 0xFFFFFFFF)}, ROOM, 2, 4, 2},
    {"term 4 of 4", {NONE, 0, 0, RULES(T(4))}, ROOM, 4, 4, 0},
    {"term 6 of 6, in rule 1", {SHEET(4), 0, 0, RULES(T(5), T(0) | T(6))}, ROOM, 4, 4, 1},
    {"term 28 of 28 and 27 below", {UP_TO_12, 0, 0, RULES(ONE_TERM_MORE ^ T(0))}, ROOM, 4, 4, 0},
    {"term 31 of 28, in rule 3", {UP_TO_12, 0, 0, RULES(0, 1, 2, T(31))}, ROOM, 4, 4, 3},
    {"no room", {NONE, 0, 0, NONE}, 0, 6, 0, 0},
    {"4 bytes of 5", {NONE, 0, 0, NONE}, 4, 6, 0, 0},
};

/* Two faults each: the one that is looked for first decides. */
static const struct refused earlier[] = {
    {"13 pins before a pin twice", {SHEET(0, 0, 1, 2, 3, 4, 5, 6, 7, 8, 9, 10, 11), 0, 0, NONE}, ROOM, 2, 1, 0},
    {"a pin twice before 9 wires of A", {SHEET(0, 0), 0x1FF, 0, NONE}, ROOM, 3, 1, 1},
    {"9 wires of A before a high one", {SHEET(4), 0x1FF, 0, NONE}, ROOM, 2, 2, 0},
    {"A's high wire before 9 wires of B", {SHEET(4), 2, 0x1FF, NONE}, ROOM, 4, 2, 0},
    {"A's 9 wires before B's high one", {UP_TO_12, 0x1FF, T(31), NONE}, ROOM, 2, 2, 0},
    {"9 wires of B before a high one", {SHEET(4), 1, 0x1FF, NONE}, ROOM, 2, 3, 0},
    {"B's high wire before 257 rules", {SHEET(4), 1, 5, empty_rules, 257}, ROOM, 4, 3, 1},
    {"B's high wire before a bad rule", {SHEET(4), 1, 5, RULES(T(31))}, ROOM, 4, 3, 1},
    {"257 rules before more terms than there are", {NONE, 0, 0, full_rules, 257}, ROOM, 2, 4, 0},
    {"more terms than there are before a term too high", {SHEET(4), 0, 0, RULES(0x7F)}, ROOM, 2, 4, 0},
    {"a term too high before more terms than there are", {SHEET(4), 0, 0, RULES(1, T(6), 0x7F)}, ROOM, 4, 4, 1},
    {"more terms than there are before a rule with one too high", {SHEET(4), 0, 0, RULES(1, 0x7F, T(6))}, ROOM, 2, 4, 1},
    {"13 pins before no room", {UP_TO_13, 0, 0, NONE}, 0, 2, 1, 0},
    {"a pin twice before no room", {SHEET(4, 4), 0, 0, NONE}, 0, 3, 1, 1},
    {"9 wires of A before no room", {UP_TO_12, 0x1FF, 0, NONE}, 0, 2, 2, 0},
    {"B's high wire before no room", {SHEET(4), 0, 2, NONE}, 0, 4, 3, 0},
    {"257 rules before no room", {NONE, 0, 0, empty_rules, 257}, 0, 2, 4, 0},
    {"more terms than there are before no room", {NONE, 0, 0, RULES(0, 0x1F)}, 6, 2, 4, 1},
    {"a term too high before no room", {NONE, 0, 0, RULES(0, T(4))}, 6, 4, 4, 1},
};

static uint64_t write_job(const struct job *job, size_t room)
{
    lend();
    return ormsvelg_write(job->pins, job->pins_len, job->sees_a, job->sees_b, job->rules, job->rules_len, lent, room);
}

static void gives(const char *name, const struct job *job, size_t room, const uint8_t *sheet, size_t length)
{
    expect(name, "the outcome", write_job(job, room), (uint64_t)length << 40);
    expect(name, "the sheet's difference", memcmp(lent, sheet, length) != 0, 0);
    expect(name, "the reader's outcome", ormsvelg_read(lent, length), ORMSVELG_ACCEPTED);
    stays(name, length);
}

static void refuses(const struct refused *wanted)
{
    uint64_t outcome = wanted->code | wanted->section << 8 | wanted->place << 16;
    expect(wanted->name, "the outcome", write_job(&wanted->job, wanted->room), outcome);
    stays(wanted->name, 0);
}

/* A buffer of the sheet's length, longer ones, and one that is a byte short. */
static void gives_with_any_room(const struct written *wanted)
{
    gives(wanted->name, &wanted->job, wanted->length, wanted->sheet, wanted->length);
    gives(wanted->name, &wanted->job, wanted->length + 1, wanted->sheet, wanted->length);
    gives(wanted->name, &wanted->job, ROOM, wanted->sheet, wanted->length);
    refuses(&(struct refused){wanted->name, wanted->job, wanted->length - 1, 6, 0, 0});
}

/* Twelve wires, both cells see the first eight, 256 rules of all 28 terms. */
static void longest(void)
{
    static const uint8_t head[] = {12, 0, 1, 2, 3, 4, 5, 6, 7, 8, 9, 10, 11, 8, 0, 1, 2, 3, 4, 5, 6, 7,
                                   8,  0, 1, 2, 3, 4, 5, 6, 7, 0, 1};
    static uint8_t sheet[7457];
    struct written wanted = {"the longest sheet", {UP_TO_12, 0xFF, 0xFF, full_rules, 256}, sheet, sizeof sheet};
    memcpy(sheet, head, sizeof head);
    for (size_t place = sizeof head; place < sizeof sheet; place++)
        sheet[place] = (place - sizeof head) % 29 == 0 ? 28 : (uint8_t)((place - sizeof head) % 29 - 1);
    gives_with_any_room(&wanted);
    gives(wanted.name, &wanted.job, ORMSVELG_LONGEST_JOB, sheet, sizeof sheet);
    wanted.job.rules_len = 257;
    refuses(&(struct refused){"the longest sheet and one rule more", wanted.job, ROOM, 2, 4, 0});
}

/* 256 empty rules: the count's low byte is 0. */
static void most_empty_rules(void)
{
    static uint8_t sheet[5 + 256] = {0, 0, 0, 0, 1};
    struct written wanted = {"256 empty rules", {NONE, 0, 0, empty_rules, 256}, sheet, sizeof sheet};
    gives_with_any_room(&wanted);
}

/* Each wire of twelve seen alone, and each term alone. */
static void singles(void)
{
    for (unsigned term = 0; term < 28; term++) {
        uint8_t wire = (uint8_t)(term % 12);
        const uint8_t sheet[] = {12, 0, 1, 2, 3, 4, 5, 6, 7, 8, 9, 10, 11, 1, wire, 1, (uint8_t)(11 - wire),
                                 1,  0, 1, (uint8_t)term};
        const uint32_t rule = T(term);
        const struct job job = {UP_TO_12, T(wire), T(11 - wire), &rule, 1};
        gives("a wire and a term alone", &job, sizeof sheet, sheet, sizeof sheet);
    }
}

static void fill_rules(void)
{
    for (size_t rule = 0; rule < sizeof full_rules / sizeof full_rules[0]; rule++)
        full_rules[rule] = ALL_TERMS_OF_12;
}

static void gives_all(void)
{
    for (size_t i = 0; i < sizeof written / sizeof written[0]; i++)
        gives_with_any_room(&written[i]);
}

static void refuses_all(const struct refused *table, size_t count)
{
    for (size_t i = 0; i < count; i++)
        refuses(&table[i]);
}

int main(void)
{
    fill_rules();
    gives_all();
    refuses_all(refused, sizeof refused / sizeof refused[0]);
    refuses_all(earlier, sizeof earlier / sizeof earlier[0]);
    longest();
    most_empty_rules();
    singles();
    expect("null buffer", "the outcome", ormsvelg_write(NULL, 0, 0, 0, NULL, 0, NULL, 0), 6);
    expect("null buffer and a bad rule", "the outcome", ormsvelg_write(NULL, 0, 0, 0, RULES(T(4)), NULL, 0), 4 | 4 << 8);
    return verdict("writer");
}
