/* host/describe.h: a job's description from a readable text, as ormsvelg_write takes it, and where in the text each entry
 * stands, so that a refusal can name line and column. A text:
 *     # a comment runs to the end of its line
 *     pins 4 7         # of the wires, rising
 *     A 0              # sees wire 0
 *     B 1              # sees wire 1
 *     rule +1 A -B     # wire 1 is 1 or A is 1 or B is 0; a line for each rule
 * Judged here is what no description can hold, so that the library would not see it. All else is the library's to judge.
 */
#ifndef HOST_DESCRIBE_H
#define HOST_DESCRIBE_H

#include "words.h"

#define LONGEST_TEXT 65536
/* A word has a byte, and another byte parts it from the next. */
#define MOST_WORDS (LONGEST_TEXT / 2 + 1)
#define MASK_BITS 32

/* One byte beyond the longest text shows that a file is longer. */
struct text {
    uint8_t bytes[LONGEST_TEXT + 1];
    size_t length;
};

/* In the order of the text and of the library's section numbers, 1 to 4. */
enum section { PINS, SEEN_A, SEEN_B, RULES, SECTIONS };

/* The lists and masks, and the place in the text of each pin, of each seen position, and of each rule's line. */
struct description {
    size_t wires, rules_len;
    uint8_t pins[MOST_WORDS];
    uint32_t sees[2], rules[MOST_WORDS];
    size_t pins_at[MOST_WORDS], seen_at[2][MASK_BITS], rules_at[MOST_WORDS];
};

/* How far a text is read: the word at hand and whether it opens its line, the section it is in, and the section whose
 * line comes next. Where `why` is not null, `at` is the place of a fault. */
struct reading {
    const struct text *text;
    size_t at, end;
    int opens, section, next;
    const char *why, *which;
};

static inline int fault(struct reading *reading, const char *why, const char *which)
{
    reading->why = why;
    reading->which = which;
    return 0;
}

enum kind { END, LINE_END, BLANK, HASH, PRINTED, CONTROL };

/* A carriage return is blank before a line feed, and a control byte elsewhere. */
static inline enum kind kind_at(const struct text *text, size_t at)
{
    if (at == text->length)
        return END;
    uint8_t byte = text->bytes[at];
    if (byte == '\n')
        return LINE_END;
    if (byte == ' ' || byte == '\t')
        return BLANK;
    if (byte == '\r' && at + 1 < text->length && text->bytes[at + 1] == '\n')
        return BLANK;
    if (byte < ' ' || byte == 0x7F)
        return CONTROL;
    return byte == '#' ? HASH : PRINTED;
}

/* Goes on over blanks, line ends and comments. */
static inline void skip_blanks(struct reading *reading)
{
    int comment = 0;
    reading->opens = reading->end == 0;
    for (reading->at = reading->end;; reading->at++) {
        enum kind kind = kind_at(reading->text, reading->at);
        if (kind == END || kind == CONTROL || (kind == PRINTED && !comment))
            return;
        if (kind == LINE_END)
            reading->opens = 1;
        comment = kind == HASH || (comment && kind != LINE_END);
    }
}

/* Goes on to the next word. Gives 0 at the text's end, and at a control byte, which is a fault. */
static inline int next_word(struct reading *reading)
{
    skip_blanks(reading);
    reading->end = reading->at;
    while (kind_at(reading->text, reading->end) == PRINTED)
        reading->end++;
    if (kind_at(reading->text, reading->at) == CONTROL)
        return fault(reading, "control byte", "");
    return reading->end > reading->at;
}

/* Whether the word at hand, from a byte of it on, is this one. */
static inline int is_word(const struct reading *reading, size_t from, const char *word)
{
    size_t length = reading->end - from;
    return strlen(word) == length && memcmp(reading->text->bytes + from, word, length) == 0;
}

/* The number in decimal digits that the word at hand is, from a byte of it on. Above every limit it stops growing. */
static inline int take_number(const struct reading *reading, size_t from, size_t *number)
{
    *number = 0;
    for (size_t at = from; at < reading->end; at++) {
        uint8_t byte = reading->text->bytes[at];
        if (byte < '0' || byte > '9')
            return 0;
        if (*number <= LONGEST_TEXT)
            *number = 10 * *number + (size_t)(byte - '0');
    }
    return reading->end > from;
}

static inline int take_pin(struct reading *reading, struct description *described)
{
    size_t pin;
    if (!take_number(reading, reading->at, &pin))
        return fault(reading, "not a number in decimal digits", "");
    if (pin > UINT8_MAX)
        return fault(reading, "pin above 255", "");
    described->pins[described->wires] = (uint8_t)pin;
    described->pins_at[described->wires] = reading->at;
    described->wires++;
    return 1;
}

static inline int take_seen(struct reading *reading, struct description *described)
{
    int cell = reading->section - SEEN_A;
    size_t position;
    if (!take_number(reading, reading->at, &position))
        return fault(reading, "not a number in decimal digits", "");
    if (position >= MASK_BITS)
        return fault(reading, "wire position above 31", "");
    if (described->sees[cell] >> position & 1)
        return fault(reading, "wire position twice in its line", "");
    described->sees[cell] |= (uint32_t)1 << position;
    described->seen_at[cell][position] = reading->at;
    return 1;
}

/* A term that no mask holds is one of more than 14 pins. The library refuses these before it looks at a rule. */
static inline int add_term(struct reading *reading, struct description *described, size_t term)
{
    uint32_t *rule = &described->rules[described->rules_len - 1];
    if (term >= MASK_BITS)
        return 1;
    if (*rule >> term & 1)
        return fault(reading, "term twice in its rule", "");
    *rule |= (uint32_t)1 << term;
    return 1;
}

/* The wires come first, then A and B. So a wire beyond the last would be taken for a cell. */
static inline int take_term(struct reading *reading, struct description *described)
{
    uint8_t sign = reading->text->bytes[reading->at];
    int has_sign = sign == '+' || sign == '-';
    size_t subject, name = reading->at + (size_t)has_sign;
    if (is_word(reading, name, "A"))
        subject = described->wires;
    else if (is_word(reading, name, "B"))
        subject = described->wires + 1;
    else if (!has_sign || !take_number(reading, name, &subject))
        return fault(reading, "not a term: +p, -p, A, -A, B or -B, where p is a wire", "");
    else if (subject >= described->wires)
        return fault(reading, "wire not below the number of pins", "");
    return add_term(reading, described, 2 * subject + (sign == '-'));
}

static inline const char *section_name(int section)
{
    static const char *const names[SECTIONS] = {"pins", "A", "B", "rule"};
    return names[section];
}

/* The first three sections have one line each, in their order; then each line is a rule. */
static inline int open_line(struct reading *reading, struct description *described)
{
    int section = PINS;
    while (section < SECTIONS && !is_word(reading, reading->at, section_name(section)))
        section++;
    if (section == SECTIONS)
        return fault(reading, "unknown word: a line begins with pins, A, B or rule", "");
    if (section < reading->next)
        return fault(reading, "second line of ", section_name(section));
    if (section > reading->next)
        return fault(reading, "missing line of ", section_name(reading->next));
    reading->section = section;
    if (section < RULES) {
        reading->next = section + 1;
        return 1;
    }
    described->rules[described->rules_len] = 0;
    described->rules_at[described->rules_len] = reading->at;
    described->rules_len++;
    return 1;
}

static inline int take_entry(struct reading *reading, struct description *described)
{
    switch (reading->section) {
    case PINS: return take_pin(reading, described);
    case RULES: return take_term(reading, described);
    default: return take_seen(reading, described);
    }
}

/* Takes a text, from its first word to its last. Gives 0 at its first fault; a text too long has no other. */
static inline int describe(const struct text *text, struct reading *reading, struct description *described)
{
    *reading = (struct reading){.text = text, .section = PINS, .next = PINS};
    described->wires = described->rules_len = 0;
    described->sees[0] = described->sees[1] = 0;
    if (text->length > LONGEST_TEXT) {
        reading->at = LONGEST_TEXT;
        return fault(reading, "text longer than 65,536 bytes", "");
    }
    while (next_word(reading))
        if (!(reading->opens ? open_line(reading, described) : take_entry(reading, described)))
            return 0;
    if (reading->why == NULL && reading->next < RULES)
        fault(reading, "missing line of ", section_name(reading->next));
    return reading->why == NULL;
}

/* Lines and columns count from 1, columns in bytes. */
static inline void show_place(const struct text *text, size_t at)
{
    size_t line = 1, begins = 0;
    for (size_t byte = 0; byte < at; byte++)
        if (text->bytes[byte] == '\n') {
            line++;
            begins = byte + 1;
        }
    printf("line %zu, column %zu", line, at - begins + 1);
}

static inline void show_fault(const struct reading *reading)
{
    printf("refused: ");
    show_place(reading->text, reading->at);
    printf(": %s%s\n", reading->why, reading->which);
}

/* Where a seen position stands, by its index in the rising set; the text may have another order. */
static inline size_t seen_at(const struct description *described, uint32_t cell, uint32_t index)
{
    unsigned position = 0;
    for (uint32_t left = index + 1; position < MASK_BITS - 1; position++) {
        left -= described->sees[cell] >> position & 1;
        if (left == 0)
            break;
    }
    return described->seen_at[cell][position];
}

/* Where the entry stands that the library refuses: for a count, the first one too many. No rule of a text has too many
 * terms, since each is below its limit and stands once. */
static inline size_t refused_at(uint64_t outcome, const struct description *described)
{
    int count = ormsvelg_code(outcome) == ORMSVELG_TOO_MANY;
    uint32_t place = ormsvelg_place(outcome), section = ormsvelg_sheet(outcome) - 1;
    switch (section) {
    case PINS: return described->pins_at[count ? ORMSVELG_MOST_WIRES : place];
    case SEEN_A:
    case SEEN_B: return seen_at(described, section - SEEN_A, count ? ORMSVELG_MOST_SEEN : place);
    default: return described->rules_at[count ? ORMSVELG_MOST_RULES : place];
    }
}

/* The library's refusal of a description. The place of a count says nothing. */
static inline void show_refused_entry(uint64_t outcome, const struct text *text, const struct description *described)
{
    uint32_t code = ormsvelg_code(outcome);
    printf("refused: code %u in section %u", (unsigned)code, (unsigned)ormsvelg_sheet(outcome));
    if (code != ORMSVELG_TOO_MANY)
        printf(" at entry %u", (unsigned)ormsvelg_place(outcome));
    printf(", ");
    show_place(text, refused_at(outcome, described));
    printf(": %s\n", reason(code));
}

#endif
